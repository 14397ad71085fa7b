/* The calls of genie.h once more, under other names, from fast.c: C written for speed, to measure the proved library against.
 * With FAST_AS_GENIE defined fast.c defines the genie_ names themselves (a stand-in for the library). */
#ifndef FAST_H
#define FAST_H

#include "genie.h"

#ifdef FAST_AS_GENIE
#define FAST(call) genie_##call
#else
#define FAST(call) fast_##call
#ifdef __cplusplus
extern "C" {
#endif
extern __typeof__(genie_check) fast_check;
extern __typeof__(genie_look_up) fast_look_up;
extern __typeof__(genie_open) fast_open;
extern __typeof__(genie_create) fast_create;
extern __typeof__(genie_read_record) fast_read_record;
extern __typeof__(genie_read_sector) fast_read_sector;
extern __typeof__(genie_write_record) fast_write_record;
extern __typeof__(genie_allot) fast_allot;
extern __typeof__(genie_trim) fast_trim;
extern __typeof__(genie_kill) fast_kill;
extern __typeof__(genie_list) fast_list;
extern __typeof__(genie_count) fast_count;
extern __typeof__(genie_bring_back) fast_bring_back;
extern __typeof__(genie_free) fast_free;
extern __typeof__(genie_compare) fast_compare;
#ifdef __cplusplus
}
#endif
#endif

#endif
