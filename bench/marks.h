/* The markers of the counted region: two instructions that do nothing and that no compiler writes, told by their displacements. */
#pragma once
#define MARK_BEGIN 0x53415801
#define MARK_END 0x53415802
#define MARK_TEXT_(x) #x
#define MARK_TEXT(x) MARK_TEXT_(x)
#define COUNT_BEGIN __asm__ volatile("nopl " MARK_TEXT(MARK_BEGIN) "(%%rax)" ::: "memory")
#define COUNT_END __asm__ volatile("nopl " MARK_TEXT(MARK_END) "(%%rax)" ::: "memory")
