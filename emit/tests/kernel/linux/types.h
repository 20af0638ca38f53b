/* SPDX-License-Identifier: Apache-2.0 OR GPL-2.0-or-later */
/* The types that a kernel's own header of this name has, and no others: for building without any of the compiler's. And
 * words that a kernel has as macros. */
#ifndef LINUX_TYPES_H
#define LINUX_TYPES_H

typedef unsigned char __u8;
typedef unsigned short __u16;
typedef signed int __s32;
typedef unsigned int __u32;
typedef unsigned long long __u64;

typedef __u8 u8, uint8_t;
typedef __u16 u16, uint16_t;
typedef __s32 s32, int32_t;
typedef __u32 u32, uint32_t;
typedef __u64 u64, uint64_t;

typedef unsigned long size_t;
typedef _Bool bool;

#define inline inline __attribute__((__always_inline__))
#define noinline __attribute__((__noinline__))
#define swap(a, b) do { __typeof__(a) was = (a); (a) = (b); (b) = was; } while (0)
#define min(a, b) ((a) < (b) ? (a) : (b))
#define __packed __attribute__((__packed__))
#define current get_current()

#endif
