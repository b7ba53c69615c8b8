/* A clock by which a second passes whenever it is looked at. bench/questions.py has it loaded before the program, which then tells of each
   question and not only once a second. */
#include <time.h>

int clock_gettime(clockid_t clock, struct timespec *now) {
  static time_t seconds = 0;
  (void)clock;
  now->tv_sec = ++seconds;
  now->tv_nsec = 0;
  return 0;
}
