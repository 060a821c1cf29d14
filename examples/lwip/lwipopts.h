// lwIP without a system below it, over its loopback. With RECORD its memory is the C library's, through the two functions of job.c that
// record a timeline; without it its memory is the pools of lwippools.h.
#ifndef LWIPOPTS_H
#define LWIPOPTS_H
#define NO_SYS 1
#define SYS_LIGHTWEIGHT_PROT 0
#define LWIP_NETCONN 0
#define LWIP_SOCKET 0
#define LWIP_HAVE_LOOPIF 1
#define LWIP_NETIF_LOOPBACK 1
#define LWIP_LOOPBACK_MAX_PBUFS 0
#define LWIP_ARP 0
#define LWIP_ETHERNET 0
#define LWIP_DHCP 0
#define LWIP_IPV6 0
#define LWIP_STATS 1
#define LWIP_STATS_LARGE 1
#define TCP_MSS 1460
#define TCP_WND (8 * TCP_MSS)
#define TCP_SND_BUF (8 * TCP_MSS)
#define TCP_SND_QUEUELEN 64
#define MEMP_NUM_TCP_SEG 2000
#define MEMP_NUM_TCP_PCB 200
#define MEMP_NUM_PBUF 1000
#define PBUF_POOL_SIZE 64
#define MEM_ALIGNMENT 8
#ifdef RECORD
#include <stddef.h>
void *recorded_malloc(size_t size);
void recorded_free(void *block);
#define MEM_LIBC_MALLOC 1
#define MEM_STATS 0 // else each request has bytes for them
#define mem_clib_malloc recorded_malloc
#define mem_clib_free recorded_free
#else
#define MEM_USE_POOLS 1
#define MEMP_USE_CUSTOM_POOLS 1
#define MEM_USE_POOLS_TRY_BIGGER_POOL 0
#endif
#endif
