/*
 * What the kernel's TTM core and the files below it take from the rest of the kernel, in user space. It is forced in before each file; every
 * header that these include and that isn't taken from the kernel's source is an empty one. The parts that the benchmark of the allocators
 * needs, too (types, the compiler's words, bits, a kmem_cache), are that one's header.
 */
#ifndef PEER_KERNEL_H
#define PEER_KERNEL_H

#include "../../bench_allocators/shims/kernel.h"
#include "faults.h"
#include "words.h"
#include "atomics.h"
#include "locks.h"
#include "ww_mutex.h"
#include "rcu.h"
#include "memory.h"
#include "pages.h"
#include "tasks.h"
#include "drm.h"
#ifdef PEER_KERNEL_6_12
#include "later.h"
#endif

#endif
