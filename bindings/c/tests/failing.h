/* Memory that is refused when a test says so. */
#ifndef FAILING_H
#define FAILING_H

#ifdef __cplusplus
extern "C" {
#endif

/* Every Nth request from now on is refused; 0 for none. */
void fail_every(unsigned long n);
/* The Nth request from now on is refused, and no other; 0 for none. */
void fail_once(unsigned long n);
/* How many blocks are held. */
long blocks_held(void);

#ifdef __cplusplus
}
#endif
#endif
