; A module as the kit makes one, with one of each kind of line. tests/retarget plants lines in it that are refused.
source_filename = "rattle"
target datalayout = "e-m:e-p270:32:32-p271:32:32-p272:64:64-i64:64-i128:128-f80:128-n8:16:32:64-S128"
target triple = "x86_64-unknown-linux-gnu"

@static.0 = private unnamed_addr constant [8 x i8] c"TLSFIMG1", align 1
; OUTSIDE

define internal noundef i32 @"sample::lines"(ptr noundef %a0, i64 noundef %a1) #0 {
start:
  %r0 = alloca ptr, align 8
  %r1 = alloca [16 x i8], align 8
  store ptr %a0, ptr %r0, align 8
  %r2 = load ptr, ptr %r0, align 8, !noundef !1
  %r3 = load { i8, ptr }, ptr %r1, align 8
  %r4 = extractvalue { i8, ptr } %r3, 1
  %r5 = ptrtoaddr ptr %r4 to i64
  %r6 = add i64 %r5, %a1
  %r7 = icmp ult i64 %r6, 4096
  call void @llvm.memset.p0.i64(ptr %r1, i8 0, i64 16, i1 false)
  call void @llvm.memmove.p0.p0.i64(ptr %r1, ptr %r2, i64 %a1, i1 false)
  %r8 = call { i64, i64 } @rattle_alloc(i64 %a1, i64 8)
  %r9 = load i32, ptr %r1, align 4
  %r10 = call i32 @llvm.ctlz.i32(i32 %r9, i1 true)
  %r11 = call i32 @llvm.ctlz.i32(i32 %r10, i1 false)
; INSIDE
  br i1 %r7, label %then.1, label %else.2

then.1:                                           ; preds = %start
  ret i32 0

else.2:                                           ; preds = %start
  unreachable
}

define noundef i32 @tlsf_heap_add_pool(ptr noundef %a0, i64 noundef %a1, i64 noundef %a2) #0 {
start:
  ret i32 0
}

define noundef i32 @tlsf_heap_block_size(ptr noundef %a0, i64 %a1, ptr noundef %a2) #0 {
start:
  ret i32 0
}

define noundef zeroext i1 @tlsf_heap_check(ptr noundef %a0) #0 {
start:
  ret i1 false
}

define noundef i32 @tlsf_heap_create(i32 noundef %a0, ptr noundef %a1) #0 {
start:
  ret i32 0
}

define void @tlsf_heap_destroy(ptr noundef %a0) #0 {
start:
  ret void
}

define noundef i32 @tlsf_heap_free(ptr noundef %a0, i64 %a1) #0 {
start:
  ret i32 0
}

define noundef i32 @tlsf_heap_largest_request(ptr noundef %a0) #0 {
start:
  ret i32 0
}

define noundef i32 @tlsf_heap_load(ptr noundef %a0, i64 noundef %a1, ptr noundef %a2) #0 {
start:
  ret i32 0
}

define noundef i32 @tlsf_heap_malloc(ptr noundef %a0, i64 noundef %a1, ptr noundef %a2) #0 {
start:
  ret i32 0
}

define noundef i32 @tlsf_heap_memalign(ptr noundef %a0, i64 noundef %a1, i64 noundef %a2, ptr noundef %a3) #0 {
start:
  ret i32 0
}

define noundef i32 @tlsf_heap_realloc(ptr noundef %a0, i64 %a1, i64 noundef %a2, ptr noundef %a3) #0 {
start:
  ret i32 0
}

define noundef i32 @tlsf_heap_records_used(ptr noundef %a0) #0 {
start:
  ret i32 0
}

define noundef i32 @tlsf_heap_remove_pool(ptr noundef %a0, i64 noundef %a1) #0 {
start:
  ret i32 0
}

define noundef i32 @tlsf_heap_save(ptr noundef %a0, ptr noundef %a1, i64 noundef %a2, ptr noundef %a3) #0 {
start:
  ret i32 0
}

define noundef i32 @tlsf_heap_walk(ptr noundef %a0, i64 noundef %a1, i64 noundef %a2, ptr noundef %a3, i64 noundef %a4, ptr noundef %a5) #0 {
start:
  ret i32 0
}

define noundef i32 @tlsf_placed_add_pool(ptr noundef %a0, i64 noundef %a1, i64 noundef %a2, i64 noundef %a3, ptr noundef %a4) #0 {
start:
  ret i32 0
}

define noundef i64 @tlsf_placed_block_size(ptr noundef %a0, i64 noundef %a1, i64 noundef %a2) #0 {
start:
  ret i64 0
}

define noundef i32 @tlsf_placed_free(ptr noundef %a0, i64 noundef %a1, i64 noundef %a2) #0 {
start:
  ret i32 0
}

define noundef zeroext i1 @tlsf_placed_has(ptr noundef %a0, i64 noundef %a1) #0 {
start:
  ret i1 false
}

define noundef zeroext i1 @tlsf_placed_has_pool(ptr noundef %a0, i32 noundef %a1, i64 noundef %a2) #0 {
start:
  ret i1 false
}

define { i64, i64 } @tlsf_placed_malloc(ptr noundef %a0, i64 noundef %a1) #0 {
start:
  %r0 = load { i64, i64 }, ptr %a0, align 8
  ret { i64, i64 } %r0
}

define { i64, i64 } @tlsf_placed_memalign(ptr noundef %a0, i64 noundef %a1, i64 noundef %a2) #0 {
start:
  %r0 = load { i64, i64 }, ptr %a0, align 8
  ret { i64, i64 } %r0
}

define noundef i64 @tlsf_placed_realloc(ptr noundef %a0, i64 noundef %a1, i64 noundef %a2, ptr noundef %a3, ptr noundef %a4) #0 {
start:
  ret i64 0
}

define noundef i32 @tlsf_placed_remove_pool(ptr noundef %a0, i32 noundef %a1) #0 {
start:
  ret i32 0
}

define noundef i64 @tlsf_placed_told_size(i64 noundef %a0, i64 noundef %a1) #0 {
start:
  ret i64 0
}

define noundef zeroext i1 @tlsf_placed_adopt(ptr noundef %a0) #0 {
start:
  ret i1 false
}

define noundef zeroext i1 @tlsf_placed_check(ptr noundef %a0, i64 noundef %a1, i64 noundef %a2) #0 {
start:
  ret i1 false
}

define noundef zeroext i1 @tlsf_placed_is_apart(i64 noundef %a0, i32 noundef %a1, i32 noundef %a2, i64 noundef %a3, i64 noundef %a4, i64 noundef %a5) #0 {
start:
  ret i1 false
}

define noundef i64 @tlsf_placed_sure_bytes(i32 noundef %a0, i32 noundef %a1, i64 noundef %a2, i64 noundef %a3) #0 {
start:
  ret i64 0
}

define noundef zeroext i1 @tlsf_placed_lost_front(i64 noundef %a0, i64 noundef %a1) #0 {
start:
  ret i1 false
}

define noundef zeroext i1 @tlsf_placed_move(ptr noundef %a0, i32 noundef %a1, i64 noundef %a2, i64 noundef %a3, i64 noundef %a4) #0 {
start:
  ret i1 false
}

define noundef zeroext i1 @tlsf_placed_moved_front(ptr noundef %a0, ptr noundef %a1, i64 noundef %a2, i64 noundef %a3, ptr noundef %a4) #0 {
start:
  ret i1 false
}

define void @tlsf_placed_free_figures(ptr noundef %a0, ptr noundef %a1) #0 {
start:
  ret void
}

define noundef zeroext i1 @tlsf_placed_places(i64 noundef %a0, i64 noundef %a1, i32 noundef %a2, i32 noundef %a3, i64 noundef %a4, ptr noundef %a5) #0 {
start:
  ret i1 false
}

define noundef i64 @tlsf_placed_walk(ptr noundef %a0, i32 noundef %a1, ptr noundef %a2, ptr noundef %a3, i64 noundef %a4) #0 {
start:
  ret i64 0
}

declare { i64, i64 } @rattle_alloc(i64 noundef, i64 noundef) #1
declare i32 @llvm.ctlz.i32(i32, i1 immarg) #1
declare void @llvm.memset.p0.i64(ptr writeonly captures(none), i8, i64, i1 immarg) #2
declare void @llvm.memmove.p0.p0.i64(ptr writeonly captures(none), ptr readonly captures(none), i64, i1 immarg) #2

attributes #0 = { nounwind "probe-stack"="inline-asm" "stack-probe-size"="3072" "target-cpu"="x86-64-v2" }
attributes #1 = { nobuiltin nounwind }
attributes #2 = { nocallback nofree nounwind willreturn memory(argmem: write) }

!llvm.ident = !{!0}
!0 = !{!"rattle logic=0"}
!1 = !{}
