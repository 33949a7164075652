/* What threads do at the same time to the handles of libkobdzila. PART 1: the references of one set (add_holder and
 * was_last_holder in c/library/held.h). PART 2: a store with its lock and its entrance (c/library/store.c). Spin
 * explores each order of their steps (tests/library/c_sequences.sh). Each `atomic` is one atomic operation of C, or one
 * of the proved library's.
 *
 * MUTATION: 1 drops a reference in two steps; 2 looks at the count once more after it was lowered; 3 publishes without
 * the lock. Each has to be refused. */

#if PART == 1
#define USERS 3

byte holders = USERS; /* each user begins with a reference */
bool freed = false;

/* When all others have ended (it comes first, since Spin ends processes in the reverse order). */
active proctype end() {
  _nr_pr == 1 -> assert(freed && holders == 0)
}

inline use() { assert(!freed) }

inline retain() {
  use();
  holders++
}

inline release() {
  use();
#if MUTATION == 1
  seen = holders;
  holders = seen - 1;
  last = (seen == 1);
#elif MUTATION == 2
  holders--;
  last = (holders == 0);
#else
  atomic { last = (holders == 1); holders-- }
#endif
  if
  :: last -> assert(!freed); freed = true
  :: else
  fi
}

active [USERS] proctype user() {
  byte seen;
  bool last;
  if
  :: retain(); use(); release()
  :: use()
  fi;
  release()
}
#else
#define PUBLISHERS 2

bool locked = false;
byte inside = 0; /* how many calls are in the proved store, which is in one at a time */
byte pending = 0, version = 0;
byte shown = 0; /* what the entrance sees */
byte told = 0;  /* the greatest version whose publish has returned */

active proctype end() {
  _nr_pr == 1 -> assert(version == PUBLISHERS && shown == version && pending == 0)
}

inline lock() { atomic { !locked -> locked = true } }

inline unlock() { locked = false }

inline begin() {
  inside++;
  assert(inside == 1)
}

inline finish() { inside-- }

active [PUBLISHERS] proctype publisher() {
  byte published;
  lock();
  begin();
  pending++;
  finish();
  unlock();
#if MUTATION != 3
  lock();
#endif
  begin();
  version = version + pending;
  pending = 0;
  shown = version;
  published = version;
  finish();
#if MUTATION != 3
  unlock();
#endif
  atomic {
    if
    :: told < published -> told = published
    :: else
    fi
  }
}

/* It makes a reader, which enters once more. It takes no lock: both steps can be made whoever has it. */
active proctype reader() {
  byte least, at;
  least = told;
  at = shown;
  assert(at >= least);
  least = told;
  assert(shown >= least && shown >= at)
}
#endif
