/* bpf_bench: cost of one classic BPF instruction.
 *   bpf_bench time           ns per executed instruction, interleaved rounds, ratios
 *   bpf_bench run WHO PROG N PROG N times under WHO (for callgrind: take two N, subtract)
 * WHO: libpcap (its bpf_filter), plain (a straight switch over the same table, with bounds checks).
 * PROG: queries (the four-instruction filter on Q), ld512 (511 loads and ret), mix512 (packet loads, alu, jumps, scratch), or a file
 *       with a listing of tcpdump -y RAW -ddd.
 * The packet is what a filter sees of an ICP query for http://a/: 28 octets of header and 34 of payload (docs/PROTOCOLS.md). */
#include <pcap/pcap.h>
#include <stdint.h>
#include <stdio.h>
#include <stdlib.h>
#include <string.h>
#include <time.h>
typedef struct bpf_insn I;
static uint8_t P[62]; static unsigned PL = 62;
static void packet(void)
{
    static const uint8_t h[28] = {0x45,0,0,62, 0,0,0,0, 64,17,0,0, 10,0,0,9, 10,0,0,1, 0x0c,0x3a,0x0c,0x3a, 0,42,0,0};
    static const uint8_t q[34] = {1,2,0,34, 0,0,0,1, 0,0,0,0, 0,0,0,0, 0,0,0,0, 0,0,0,0, 'h','t','t','p',':','/','/','a','/',0};
    memcpy(P, h, 28); memcpy(P + 28, q, 34);
}
/* plain: the table of instructions as one switch; also counts the executed ones */
__attribute__((noinline)) static uint32_t plain(const I *p, const uint8_t *d, uint32_t n, uint32_t *steps)
{
    uint32_t a = 0, x = 0, m[16] = {0}, pc = 0, s = 0; 
    for (;;) {
        const I *i = p + pc++; uint64_t o; uint32_t k = i->k; s++;
        switch (i->code) {
        case 0x20: if ((uint64_t)k + 4 > n) goto zero; a = (uint32_t)d[k] << 24 | d[k+1] << 16 | d[k+2] << 8 | d[k+3]; break;
        case 0x28: if ((uint64_t)k + 2 > n) goto zero; a = d[k] << 8 | d[k+1]; break;
        case 0x30: if (k >= n) goto zero; a = d[k]; break;
        case 0x40: o = (uint64_t)x + k; if (o + 4 > n) goto zero; a = (uint32_t)d[o] << 24 | d[o+1] << 16 | d[o+2] << 8 | d[o+3]; break;
        case 0x48: o = (uint64_t)x + k; if (o + 2 > n) goto zero; a = d[o] << 8 | d[o+1]; break;
        case 0x50: o = (uint64_t)x + k; if (o >= n) goto zero; a = d[o]; break;
        case 0x00: a = k; break; case 0x60: a = m[k & 15]; break; case 0x80: a = n; break;
        case 0x01: x = k; break; case 0x61: x = m[k & 15]; break; case 0x81: x = n; break;
        case 0xb1: if (k >= n) goto zero; x = 4 * (d[k] & 15); break;
        case 0x02: m[k & 15] = a; break; case 0x03: m[k & 15] = x; break;
        case 0x04: a += k; break; case 0x14: a -= k; break; case 0x24: a *= k; break; case 0x34: a /= k; break;
        case 0x44: a |= k; break; case 0x54: a &= k; break; case 0x64: a = k < 32 ? a << k : 0; break; case 0x74: a = k < 32 ? a >> k : 0; break;
        case 0x0c: a += x; break; case 0x1c: a -= x; break; case 0x2c: a *= x; break; case 0x3c: if (!x) goto zero; a /= x; break;
        case 0x4c: a |= x; break; case 0x5c: a &= x; break; case 0x6c: a = x < 32 ? a << x : 0; break; case 0x7c: a = x < 32 ? a >> x : 0; break;
        case 0x84: a = -a; break;
        case 0x05: pc += k; break;
        case 0x15: pc += a == k ? i->jt : i->jf; break; case 0x35: pc += a >= k ? i->jt : i->jf; break;
        case 0x25: pc += a > k ? i->jt : i->jf; break; case 0x45: pc += a & k ? i->jt : i->jf; break;
        case 0x1d: pc += a == x ? i->jt : i->jf; break; case 0x3d: pc += a >= x ? i->jt : i->jf; break;
        case 0x2d: pc += a > x ? i->jt : i->jf; break; case 0x4d: pc += a & x ? i->jt : i->jf; break;
        case 0x06: *steps = s; return k; case 0x16: *steps = s; return a;
        case 0x07: x = a; break; case 0x87: a = x; break;
        default: goto zero;
        }
    }
zero: *steps = s; return 0;
}
static I prog[4096]; static int plen;
static void load(const char *w)
{
    plen = 0;
#define E(c,t,f,v) (prog[plen++] = (I){c,t,f,v})
    if (!strcmp(w, "queries")) { E(48,0,0,28); E(21,0,1,1); E(6,0,0,65535); E(6,0,0,0); }
    else if (!strcmp(w, "ld512")) { while (plen < 511) E(0,0,0,0); E(6,0,0,1); }
    else if (!strcmp(w, "mix512")) {
        while (plen + 10 <= 510) { E(0x30,0,0,28); E(0x15,0,1,1); E(0x54,0,0,255); E(0x02,0,0,3); E(0x28,0,0,22); E(0x61,0,0,3); E(0x0c,0,0,0); E(0x74,0,0,2); E(0x25,1,0,0xffffff); E(0xb1,0,0,0); }
        while (plen < 511) E(0x87,0,0,0);
        E(6,0,0,1); }
    else { FILE *f = fopen(w, "r"); int n; if (!f || fscanf(f, "%d", &n) != 1 || n > 4096) { fprintf(stderr, "no listing %s\n", w); exit(2); }
        for (int i = 0; i < n; i++) { unsigned a, t, g, k; if (fscanf(f, "%u %u %u %u", &a, &t, &g, &k) != 4) exit(2); E(a, t, g, k); } fclose(f); }
    if (!bpf_validate(prog, plen)) { fprintf(stderr, "%s: libpcap refuses\n", w); exit(2); }
}
static volatile uint32_t sink;
static double now(void) { struct timespec t; clock_gettime(CLOCK_THREAD_CPUTIME_ID, &t); return t.tv_sec + t.tv_nsec / 1e9; }
static void run(int who, long n) { uint32_t s; if (!who) for (long i = 0; i < n; i++) sink = bpf_filter(prog, P, PL, PL); else for (long i = 0; i < n; i++) sink = plain(prog, P, PL, &s); }
int main(int c, char **v)
{
    packet();
    if (c == 5 && !strcmp(v[1], "run")) { load(v[3]); run(strcmp(v[2], "libpcap") != 0, atol(v[4])); return 0; }
    if (c == 3 && !strcmp(v[1], "steps")) { load(v[2]); uint32_t s; uint32_t r = plain(prog, P, PL, &s); printf("instructions=%d executed=%u verdict=%u libpcap=%u\n", plen, s, r, bpf_filter(prog, P, PL, PL)); return 0; }
    if (c < 2 || strcmp(v[1], "time")) return 2;
    for (int j = 2; j < c; j++) {
        load(v[j]); uint32_t s, r = plain(prog, P, PL, &s); if (r != bpf_filter(prog, P, PL, PL)) { fprintf(stderr, "%s: verdicts differ\n", v[j]); return 1; }
        long n = 12000000 / s; double best[2] = {1e9, 1e9};
        for (int k = 0; k < 9; k++) for (int w = 0; w < 2; w++) { double t = now(); run(w, n); t = now() - t; if (t < best[w]) best[w] = t; }
        double a = best[0] * 1e9 / n, b = best[1] * 1e9 / n;
        printf("%-22s length %4d executed %3u verdict %5u | libpcap %8.1f ns/packet %5.2f ns/insn | plain switch %8.1f ns/packet %5.2f ns/insn | plain/libpcap %.2f\n", strrchr(v[j], '/') ? strrchr(v[j], '/') + 1 : v[j], plen, s, r, a, a / s, b, b / s, b / a);
    }
}
