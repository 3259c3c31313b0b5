// A library to preload: RESET=5 has the connection of descriptor 5 end with a reset once all have closed it. What bash
// opens by /dev/tcp would else end as if all had been said.
//
// The toolchain's clang builds it, and has no headers, so that all that is called is declared here.

extern char *getenv(const char *);
extern int atoi(const char *);
extern int setsockopt(int, int, int, const void *, unsigned);

enum { SOL_SOCKET = 1, SO_LINGER = 13 };

__attribute__((constructor)) static void start(void) {
  const char *descriptor = getenv("RESET");
  const int at_once[2] = {1, 0};
  if (descriptor) setsockopt(atoi(descriptor), SOL_SOCKET, SO_LINGER, at_once, sizeof at_once);
}
