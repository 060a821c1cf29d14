// A job for lwIP: clients that send to an echo server over the loopback, and are answered.
//
//   job [CONNECTIONS [FIRST [KINDS]]]   2,000 connections, whose messages are of KINDS kinds of sizes from the kind FIRST on
//
// With RECORD it writes the timeline of lwIP's memory to standard output. Without it, it writes for each pool how many of its blocks were
// used at most and how many requests it refused, by lwIP's own statistics.
#include <lwip/init.h>
#include <lwip/netif.h>
#include <lwip/priv/memp_priv.h>
#include <lwip/stats.h>
#include <lwip/tcp.h>
#include <lwip/timeouts.h>
#include <stdio.h>
#include <stdlib.h>

static const unsigned sizes[] = {24, 60, 90, 210, 300, 536, 700, 980, 1200, 1400};
static unsigned long long received, sent;
static int alive, refused;

struct client {
    struct tcp_pcb *pcb;
    unsigned messages, size;
};

#ifdef RECORD
// a block has its size before it
void *recorded_malloc(size_t size)
{
    size_t *block = malloc(size + 16);
    if (!block) return NULL;
    *block = size;
    printf("%zu\n", size);
    return (char *)block + 16;
}

void recorded_free(void *block)
{
    size_t *own = (size_t *)((char *)block - 16);
    printf("-%zu\n", *own);
    free(own);
}
#endif

u32_t sys_now(void)
{
    static u32_t now;
    return now++;
}

static err_t answer(void *arg, struct tcp_pcb *pcb, struct pbuf *p, err_t error)
{
    char text[2048];
    (void)arg, (void)error;
    if (!p) {
        tcp_close(pcb);
        return ERR_OK;
    }
    u16_t length = pbuf_copy_partial(p, text, sizeof text, 0), part = length / 3 + 1;
    received += p->tot_len;
    tcp_recved(pcb, p->tot_len);
    pbuf_free(p);
    if (tcp_sndbuf(pcb) >= part) {
        refused += tcp_write(pcb, text, part, TCP_WRITE_FLAG_COPY) != ERR_OK;
        tcp_output(pcb);
    }
    return ERR_OK;
}

static err_t accept_client(void *arg, struct tcp_pcb *pcb, err_t error)
{
    (void)arg, (void)error;
    if (!pcb) return ERR_VAL;
    tcp_recv(pcb, answer);
    return ERR_OK;
}

static void send_more(struct client *client)
{
    static char text[2048];
    while (client->messages && tcp_sndbuf(client->pcb) >= client->size && tcp_sndqueuelen(client->pcb) < 12) {
        if (tcp_write(client->pcb, text, client->size, TCP_WRITE_FLAG_COPY)) {
            refused++;
            break;
        }
        sent += client->size;
        client->messages--;
    }
    tcp_output(client->pcb);
}

static err_t was_sent(void *arg, struct tcp_pcb *pcb, u16_t length)
{
    struct client *client = arg;
    (void)length;
    send_more(client);
    if (!client->messages && tcp_sndqueuelen(pcb) == 0) {
        tcp_arg(pcb, NULL);
        tcp_recv(pcb, NULL);
        tcp_sent(pcb, NULL);
        tcp_close(pcb);
        alive--;
    }
    return ERR_OK;
}

static err_t was_answered(void *arg, struct tcp_pcb *pcb, struct pbuf *p, err_t error)
{
    (void)arg, (void)error;
    if (p) {
        tcp_recved(pcb, p->tot_len);
        pbuf_free(p);
    }
    return ERR_OK;
}

static err_t was_connected(void *arg, struct tcp_pcb *pcb, err_t error)
{
    (void)error;
    tcp_sent(pcb, was_sent);
    tcp_recv(pcb, was_answered);
    send_more(arg);
    return ERR_OK;
}

// starts a client; whether it could be
static int start(struct client *client, int number, int first, int kinds)
{
    ip_addr_t loopback;
    IP_ADDR4(&loopback, 127, 0, 0, 1);
    client->messages = 5 + rand() % 30;
    client->size = sizes[first + (rand() % kinds + number / 300) % kinds];
    client->size += rand() % 8;
    client->pcb = tcp_new();
    if (!client->pcb) return 0;
    tcp_arg(client->pcb, client);
    if (tcp_connect(client->pcb, &loopback, 7, was_connected) == ERR_OK) return 1;
    tcp_abort(client->pcb);
    return 0;
}

int main(int words, char **word)
{
    int connections = words > 1 ? atoi(word[1]) : 2000, first = words > 2 ? atoi(word[2]) : 0, kinds = words > 3 ? atoi(word[3]) : 10;
    int started = 0;
    if (connections < 1 || first < 0 || kinds < 1 || first + kinds > 10) return 2;
#ifdef RECORD
    puts("timeline");
#endif
    struct client *clients = calloc(connections, sizeof *clients);
    if (!clients) return 3;
    lwip_init();
    struct tcp_pcb *server = tcp_new();
    tcp_bind(server, IP_ADDR_ANY, 7);
    tcp_accept(tcp_listen(server), accept_client);
    srand(7);
    for (long turn = 0; turn < 4000000 && (started < connections || alive); turn++) {
        if (started < connections && alive < 40 && start(&clients[started], started, first, kinds)) {
            alive++;
            started++;
        }
        netif_poll_all();
        sys_check_timeouts();
    }
    fprintf(stderr, "%d connections, %llu bytes sent, %llu received, %d writes refused\n", started, sent, received, refused);
#ifndef RECORD
    for (unsigned i = MEMP_POOL_FIRST; i <= MEMP_POOL_LAST; i++) {
        const struct memp_desc *pool = memp_pools[i];
        printf("pool %u x %u, most used %u, refused %u\n", pool->size, pool->num, (unsigned)pool->stats->max, (unsigned)pool->stats->err);
    }
#endif
    return 0;
}
