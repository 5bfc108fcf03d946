#ifndef KERNEL_H
#define KERNEL_H

#define offsetof(type, member) ((unsigned long)&((type *)0)->member)
#define container_of(pointer, type, member) \
	((type *)((char *)(pointer) - offsetof(type, member)))
#define ARRAY_SIZE(array) (sizeof(array) / sizeof((array)[0]))

#endif
