#ifndef LOCK_H
#define LOCK_H

#ifdef CONFIG_SMP
typedef struct { volatile int held; } spinlock_t;
void spin_lock(spinlock_t *lock);
void spin_unlock(spinlock_t *lock);
#else
typedef struct { char unused; } spinlock_t;
#define spin_lock(lock) ((void)(lock))
#define spin_unlock(lock) ((void)(lock))
#endif

#endif
