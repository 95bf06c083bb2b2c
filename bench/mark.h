/* A counter of instructions starts at a mark and stops at the next one. */
#ifndef BENCH_MARK_H
#define BENCH_MARK_H

void mark(void);

#endif
