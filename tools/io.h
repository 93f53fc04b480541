/* io.h */
#ifndef IO_H
#define IO_H

#ifdef VMS
# include <unixio.h>
#elif defined(WIN32)
# include <io.h>
#else
# include <unistd.h>
#endif

#ifndef UNIX
# define open(f) vms_open(f)
#endif

#if defined(VMS) && defined(DEBUG)
int trace(const char *);
#endif

#endif /* IO_H */
