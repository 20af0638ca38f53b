/* SPDX-License-Identifier: Apache-2.0 OR GPL-2.0-or-later */
/* What a kernel's own header of this name has of attributes: noinstr puts a function into a section of its own. */
#ifndef LINUX_COMPILER_H
#define LINUX_COMPILER_H

#define notrace __attribute__((__no_instrument_function__))
#define noinstr noinline notrace __attribute__((__section__(".noinstr.text")))

#endif
