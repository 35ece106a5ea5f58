; A program's module as the kit makes one, with one of each kind of line beyond those of module.ll. tests/retarget plants lines in it
; that are refused for WebAssembly.
source_filename = "rattle"
target datalayout = "e-m:e-p270:32:32-p271:32:32-p272:64:64-i64:64-i128:128-f80:128-n8:16:32:64-S128"
target triple = "x86_64-unknown-linux-gnu"

@static.0 = private unnamed_addr constant [4 x i8] c"\\u{}", align 1
@static.1 = private constant <{ ptr, [8 x i8], ptr, [3 x i8] }> <{ ptr getelementptr (i8, ptr @static.1, i64 24), [8 x i8] c"\02\00\00\00\00\00\00\00", ptr getelementptr (i8, ptr @static.1, i64 26), [3 x i8] c"yes" }>, align 8
; OUTSIDE

define internal noundef i32 @"sample::main+start"() #0 {
start:
  ret i32 0
}

define internal noundef { ptr, i32 } @"sample::lines"(ptr noundef %a0, i128 noundef %a1, double noundef %a2) #0 {
start:
  %r0 = alloca ptr, align 8
  %r1 = alloca i128, align 16
  store i128 %a1, ptr %r1, align 16
  %r2 = load i128, ptr %r1, align 16, !noundef !1
  %r3 = load { ptr, i32 }, ptr %a0, align 8
  %r4 = load { ptr, ptr }, ptr %a0, align 8
  %r5 = load { i8, ptr }, ptr %a0, align 8
  %r6 = load { ptr, i64 }, ptr %a0, align 8
  %r7 = load { i8, double }, ptr %a0, align 8
  %r8 = extractvalue { ptr, i32 } %r3, 0
  %r9 = ptrtoaddr ptr %r8 to i64
  %r10 = call { i64, i64 } @rattle_alloc(i64 %r9, i64 8)
  %r11 = load <16 x i8>, ptr %a0, align 1, !noundef !1
  %r12 = icmp slt <16 x i8> %r11, zeroinitializer
  %r13 = bitcast <16 x i1> %r12 to i16
  %r14 = sext <16 x i1> %r12 to <16 x i8>
  %r15 = select <16 x i1> %r12, <16 x i8> %r11, <16 x i8> %r14
  store <16 x i8> %r15, ptr %a0, align 1
  %r16 = fmul double %a2, 0x41F0000000000000
  %r17 = fcmp olt double %r16, %a2
  %r18 = call i32 (ptr, i32, ...) @open(ptr %a0, i32 0)
  call void @llvm.memset.p0.i64(ptr %a0, i8 0, i64 %r9, i1 false)
; INSIDE
  ret { ptr, i32 } %r3
}

define i32 @main() #1 {
start:
  %r0 = call i64 @__sysv_signal(i32 13, i64 1)
  %r1 = call ptr @__x86_get_cpuid_feature_leaf(i32 0)
  %r2 = load i32, ptr %r1, align 4, !noundef !1
  %r3 = icmp eq i32 %r2, 0
  br i1 %r3, label %run, label %refuse

run:                                              ; preds = %start
  %r4 = call i32 @"sample::main+start"()
  ret i32 %r4

refuse:                                           ; preds = %start
  ret i32 127
}

declare i64 @__sysv_signal(i32, i64) #2
declare ptr @__x86_get_cpuid_feature_leaf(i32) #2
declare { i64, i64 } @rattle_alloc(i64 noundef, i64 noundef) #3
declare noundef i32 @open(ptr noundef, i32 noundef, ...) #3
declare void @llvm.memset.p0.i64(ptr writeonly captures(none), i8, i64, i1 immarg) #3

attributes #0 = { nounwind "probe-stack"="inline-asm" "stack-probe-size"="3072" "target-cpu"="x86-64-v2" }
attributes #1 = { nounwind "probe-stack"="inline-asm" "stack-probe-size"="3072" "target-cpu"="x86-64" }
attributes #2 = { nounwind }
attributes #3 = { nobuiltin nounwind }

!llvm.ident = !{!0}
!0 = !{!"rattle logic=0"}
!1 = !{}
