// A library to preload: the clock of the program that it is loaded into is set by as many seconds as the file has that SET_CLOCK
// names, once it is there.
//
// The toolchain's clang builds it, and has no headers, so that all that is called is declared here.

extern char *getenv(const char *);
extern long strtol(const char *, char **, int);
extern long syscall(long, ...);

enum { READ = 0, OPEN = 2, CLOSE = 3, GET_TIME = 228 };
enum { OF_DAY = 0 };

struct time { long seconds, nanoseconds; };

static long set_by(void) {
  char text[32] = "";
  const char *name = getenv("SET_CLOCK");
  long file = name ? syscall(OPEN, name, 0) : -1;
  if (file < 0) return 0;
  syscall(READ, file, text, sizeof text - 1);
  syscall(CLOSE, file);
  return strtol(text, 0, 10);
}

int clock_gettime(int clock, struct time *time) {
  long answer = syscall(GET_TIME, clock, time);
  if (answer == 0 && clock == OF_DAY) time->seconds += set_by();
  return answer;
}
