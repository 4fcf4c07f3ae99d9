#define _GNU_SOURCE
#include <dlfcn.h>
#include <sys/resource.h>
#include <stdio.h>
#include <time.h>
static long last;
int clock_gettime(clockid_t c, struct timespec*t){
  static int (*f)(clockid_t,struct timespec*); if(!f) f=dlsym(RTLD_NEXT,"clock_gettime");
  struct rusage r; getrusage(RUSAGE_SELF,&r); fprintf(stderr,"flt %ld\n", r.ru_minflt-last); last=r.ru_minflt; return f(c,t);}
