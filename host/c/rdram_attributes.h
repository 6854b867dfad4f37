/*
 * rdram_attributes.h: what the declarations tell a compiler of the buffers that a call is lent. Part of
 * rdram.h, which includes it. With -O2 -Wall gcc from 10 on warns, where it can see it, of one buffer lent
 * twice to a call, of a length above that of its buffer, of a buffer that is read before anything was put
 * there, and of an answer that is not looked at. Other compilers say less, or nothing.
 */
#ifndef RDRAM_ATTRIBUTES_H
#define RDRAM_ATTRIBUTES_H

#if defined(__GNUC__) || defined(_MSC_VER)
#define RDRAM_RESTRICT __restrict
#elif defined(__STDC_VERSION__) && __STDC_VERSION__ >= 199901L
#define RDRAM_RESTRICT restrict
#else
#define RDRAM_RESTRICT
#endif

/* A call is made for its answer, which says whether it was refused. */
#if defined(__GNUC__)
#define RDRAM_ANSWER __attribute__((warn_unused_result))
#else
#define RDRAM_ANSWER
#endif

/*
 * The places, from 1, of a buffer and of its length. What is only written need not be set before the
 * call; what the call does not write stays. What is changed is read too. An index of which the first
 * `kept` words are read has none of these: with kept 0 it need not be set.
 */
#if defined(__has_attribute)
#if __has_attribute(access)
#define RDRAM_READS(buffer, length) __attribute__((access(read_only, buffer, length)))
#define RDRAM_WRITES(buffer, length) __attribute__((access(write_only, buffer, length)))
#define RDRAM_CHANGES(buffer, length) __attribute__((access(read_write, buffer, length)))
/* One struct, at a pointer that is not null. */
#define RDRAM_CHANGES_ONE(pointer) __attribute__((access(read_write, pointer), nonnull(pointer)))
#endif
#endif
#ifndef RDRAM_READS
#define RDRAM_READS(buffer, length)
#define RDRAM_WRITES(buffer, length)
#define RDRAM_CHANGES(buffer, length)
#define RDRAM_CHANGES_ONE(pointer)
#endif

#endif
