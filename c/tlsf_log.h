/* tlsf_log.h: a log of the calls of tlsf.h, for boards that have no mtrace(3). Its lines are those
 * of docs/FORMATS.md, so `tlsf sites`, `leaks --no-heap`, `timeline`, `fit` and the page read it.
 * Not proved.
 *
 * The program's sources stay as they are. It is linked with tlsf_log.c and
 *
 *     -Wl,--wrap=tlsf_malloc,--wrap=tlsf_memalign,--wrap=tlsf_realloc,--wrap=tlsf_free
 *
 * and its calls of these four are told from tlsf_log_begin to tlsf_log_end, each with the address
 * that it returns to. That takes no heap and no printf, at most 400 bytes of stack, and time that
 * is bounded by the name of the file. Without these words it links, too. Then the log has no call,
 * but a line that says so: `not linked by --wrap`.
 *
 * Calls of interrupt handlers are told, too, where a build of tlsf_log.c defines TLSF_LOG_LOCK()
 * and TLSF_LOG_UNLOCK(), as by c/bare/interrupts.h. These stand around a call with its lines, so
 * that no line is torn, the two of a realloc stand together, and all stand in the order of the
 * calls. The first may declare a variable that the second uses.
 */
#ifndef TLSF_LOG_H
#define TLSF_LOG_H

#include "tlsf.h"

#ifdef __cplusplus
extern "C" {
#endif

/* Takes one or two whole lines. It makes no call of the heap. */
typedef void (*tlsf_log_put)(const char *text, size_t bytes, void *user);

/* Begins a log. `file` is the name of the program's ELF file, without spaces, of which up to 64
 * bytes are told: so a call's location is fw.elf:[0x8001234]. The name stays the caller's, and as
 * it is. */
void tlsf_log_begin(const char *file, tlsf_log_put put, void *user);

/* Ends the log. Later calls aren't told. */
void tlsf_log_end(void);

/* A ring of the program's own memory, for lines that can't be put at once. It begins with its
 * memory and zeros. `written` and `taken` are places of two rounds, so that a full ring isn't an
 * empty one. */
typedef struct tlsf_log_ring {
    char *memory;
    size_t bytes;
    size_t written;
    size_t taken;
    size_t lost;
    unsigned char is_cut;
} tlsf_log_ring;

/* Is a tlsf_log_put into the ring that `ring` points to. Once a call's lines have no room, that
 * call and all later ones are lost, lest a report be wrong: the log ends there. As soon as there is
 * room, it ends with how many calls were lost so far, and with the line of a log that is cut:
 *
 *     @ lost ! (nil) 0x1f
 *     @ cut ! (nil) 0
 */
void tlsf_log_into_ring(const char *text, size_t bytes, void *ring);

/* Takes up to `room` bytes out of the ring, and answers how many. One reader may call it beside one
 * writer, without a lock. */
size_t tlsf_log_take(tlsf_log_ring *ring, char *out, size_t room);

#ifdef __cplusplus
}
#endif

#endif
