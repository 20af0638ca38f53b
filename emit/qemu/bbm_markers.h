/* SPDX-License-Identifier: Apache-2.0 OR GPL-2.0-or-later */
/* Markers by which a guest can tell bbm_trace.c what no instruction shows: hints that have no meaning, so that they do
 * nothing on a processor and cost one instruction. Each takes its operands in x0 and x1.
 */
#ifndef BBM_MARKERS_H
#define BBM_MARKERS_H

#define BBM_MARK(hint, first, second) do { \
	register unsigned long bbm_first __asm__("x0") = (unsigned long)(first); \
	register unsigned long bbm_second __asm__("x1") = (unsigned long)(second); \
	__asm__ volatile("hint #" #hint : : "r"(bbm_first), "r"(bbm_second) : "memory"); \
} while (0)

/* The lock of this number, 0 to 1023, was just taken, and is about to be given back: both inside of it. */
#define bbm_mark_lock(lock) BBM_MARK(120, lock, 0)
#define bbm_mark_unlock(lock) BBM_MARK(121, lock, 0)
/* Writers of the tree of this root, a physical address, hold this lock. Before the root is first loaded. */
#define bbm_mark_lock_of_root(root, lock) BBM_MARK(122, root, lock)
/* The root is given up, before its pages go back. */
#define bbm_mark_end_of_root(root) BBM_MARK(123, root, 0)

#endif
