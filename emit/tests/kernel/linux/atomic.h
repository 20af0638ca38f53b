/* SPDX-License-Identifier: Apache-2.0 OR GPL-2.0-or-later */
/* What a kernel's own header of this name has for words of 64 bits. Each is a call here, so that an object shows it. */
#ifndef LINUX_ATOMIC_H
#define LINUX_ATOMIC_H

unsigned long long kernel_cmpxchg64(void *at, unsigned long long old, unsigned long long new);
unsigned long long kernel_load(const void *at);
void kernel_store(void *at, unsigned long long value);

#define cmpxchg64(at, old, new) kernel_cmpxchg64(at, old, new)
#define smp_load_acquire(at) kernel_load(at)
#define smp_store_release(at, value) kernel_store(at, value)

#endif
