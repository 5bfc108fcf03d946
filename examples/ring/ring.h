#ifndef RING_H
#define RING_H

#include <lock.h>

#if defined CONFIG_SMP && CONFIG_RING_ORDER < 8
#error a ring that processors share has 256 entries or more
#endif

#define RING_SIZE (1u << CONFIG_RING_ORDER)

#ifdef CONFIG_PM
#define RING_SLEEP_STATES(STATE) STATE(SLEEPING, "sleeping") STATE(WAKING, "waking")
#else
#define RING_SLEEP_STATES(STATE)
#endif

#define RING_STATES(STATE)    \
	STATE(IDLE, "idle")       \
	STATE(RUNNING, "running") \
	RING_SLEEP_STATES(STATE)

#define RING_STATE_NAME(name, text) RING_##name,
enum ring_state { RING_STATES(RING_STATE_NAME) };
#undef RING_STATE_NAME

struct ring {
	spinlock_t lock;
	enum ring_state state;
	unsigned int head, tail;
	int entries[RING_SIZE];
};

#endif
