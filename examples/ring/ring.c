#include <kernel.h>
#include "ring.h"

#if CONFIG_RING_DEBUG > 1
#define TRACE(...) trace(__FILE__, __LINE__, __VA_ARGS__)
#elif CONFIG_RING_DEBUG
#define TRACE(...) trace("ring", 0, __VA_ARGS__)
#else
#define TRACE(...) ((void)0)
#endif

void trace(const char *file, int line, const char *format, ...);

struct device {
	int id;
	struct ring ring;
};

#define RING_STATE_TEXT(name, text) text,
static const char *const state_texts[] = { RING_STATES(RING_STATE_TEXT) };

const char *ring_state_text(const struct ring *ring)
{
	return ring->state < ARRAY_SIZE(state_texts) ? state_texts[ring->state] : "unknown";
}

int ring_put(struct ring *ring, int entry)
{
	int is_put = 0;

	spin_lock(&ring->lock);
	if (ring->head - ring->tail < RING_SIZE) {
		ring->entries[ring->head++ % RING_SIZE] = entry;
		is_put = 1;
	}
	spin_unlock(&ring->lock);
	TRACE("device %d: %d\n", container_of(ring, struct device, ring)->id, is_put);
	return is_put;
}
