/* IPFIX as libfixbuf writes and reads it.
 *
 *     fixbuf write FILE           writes a session to a file,
 *     fixbuf send HOST PORT       or over TCP,
 *     fixbuf datagrams HOST PORT  or over UDP; each prints the lines that `collectd dump` owes for it
 *     fixbuf read FILE            prints the table that it has as `--format csv` does, but for the heading
 */
#include <fixbuf/public.h>
#include <inttypes.h>
#include <stdio.h>
#include <stdlib.h>
#include <string.h>
#include <unistd.h>

#define TRY(call) \
    do { if (!(call)) { fprintf(stderr, "%s: %s\n", #call, err ? err->message : "no message"); exit(1); } } while (0)
#define TIME UINT32_C(1700000000)

static GError *err;
static fbInfoModel_t *model;
static fbSession_t *session;
static useconds_t waits; /* behind each record; datagrams that come faster than they are read are lost */

/* What stands in memory, and in the messages: a flow over IPv4, one over IPv6, an interface. */
struct flow4 {
    uint64_t start, end, octets, packets;
    fbVarfield_t interface, own;
    uint32_t source;
    uint16_t port;
    uint8_t protocol, padding;
};
static fbInfoElementSpec_t flow4_inside[] = {
    {"flowStartMilliseconds", 8, 0}, {"flowEndMilliseconds", 8, 0}, {"octetDeltaCount", 8, 0},
    {"packetDeltaCount", 8, 0}, {"interfaceName", FB_IE_VARLEN, 0}, {"ownOctets", FB_IE_VARLEN, 0},
    {"sourceIPv4Address", 4, 0}, {"sourceTransportPort", 2, 0}, {"protocolIdentifier", 1, 0},
    {"paddingOctets", 1, 0}, FB_IESPEC_NULL};
static fbInfoElementSpec_t flow4_outside[] = {
    {"flowStartMilliseconds", 8, 0}, {"flowEndMilliseconds", 8, 0}, {"sourceIPv4Address", 4, 0},
    {"sourceTransportPort", 2, 0}, {"protocolIdentifier", 1, 0}, {"interfaceName", FB_IE_VARLEN, 0},
    {"ownOctets", FB_IE_VARLEN, 0}, {"octetDeltaCount", 5, 0}, {"packetDeltaCount", 3, 0}, FB_IESPEC_NULL};
static fbInfoElementSpec_t flow4_outside_again[] = {
    {"packetDeltaCount", 8, 0}, {"octetDeltaCount", 8, 0}, {"sourceIPv4Address", 4, 0},
    {"flowEndMilliseconds", 8, 0}, {"flowStartMilliseconds", 8, 0}, FB_IESPEC_NULL};
struct flow6 {
    fbBasicList_t hops;
    uint64_t octets;
    uint32_t start, end;
    uint8_t source[16], mac[6], padding[2];
};
static fbInfoElementSpec_t flow6_both[] = {
    {"basicList", FB_IE_VARLEN, 0}, {"octetDeltaCount", 8, 0}, {"flowStartSeconds", 4, 0}, {"flowEndSeconds", 4, 0},
    {"sourceIPv6Address", 16, 0}, {"sourceMacAddress", 6, 0}, {"paddingOctets", 2, 0}, FB_IESPEC_NULL};
struct interface {
    fbVarfield_t name;
    uint32_t number;
};
static fbInfoElementSpec_t interface_inside[] = {
    {"interfaceName", FB_IE_VARLEN, 0}, {"ingressInterface", 4, 0}, FB_IESPEC_NULL};
static fbInfoElementSpec_t interface_outside[] = {
    {"ingressInterface", 2, 0}, {"interfaceName", FB_IE_VARLEN, 0}, FB_IESPEC_NULL};
static void add(gboolean inside, uint16_t id, fbInfoElementSpec_t *fields, uint32_t scope)
{
    fbTemplate_t *made = fbTemplateAlloc(model);
    TRY(fbTemplateAppendSpecArray(made, fields, UINT32_MAX, &err));
    if (scope) fbTemplateSetOptionsScope(made, scope);
    TRY(fbSessionAddTemplate(session, inside, id, made, &err));
}

static void append(fBuf_t *buffer, uint16_t id, void *record, size_t size)
{
    TRY(fBufSetInternalTemplate(buffer, id, &err));
    TRY(fBufSetExportTemplate(buffer, id, &err));
    TRY(fBufAppend(buffer, record, size, &err));
    if (waits) usleep(waits);
}

static void print_octets(const char *name, const fbVarfield_t *field)
{
    printf(" %s=0x", name);
    for (size_t i = 0; i < field->len; i++) printf("%02x", field->buf[i]);
}

static struct flow4 make_flow4(unsigned number)
{
    static uint8_t octets[1000];
    /* (the lengths around which the long form of section 7 begins) */
    static const size_t lengths[] = {0, 1, 254, 255, 256, 1000};
    memset(octets, 'a' + number % 26, sizeof octets);
    return (struct flow4){
        .start = TIME * UINT64_C(1000) + number * 37, .end = TIME * UINT64_C(1000) + number * 41,
        .octets = UINT64_C(40000000) * number + 7, .packets = number + 1, .source = UINT32_C(0xc0000201) + number % 5,
        .port = 1000 + number, .protocol = number % 2 ? 6 : 17,
        .interface = {number % 16, (uint8_t *)"ethernet-0/1/23."}, .own = {lengths[number % 6], octets}};
}

static void print_source(uint32_t source)
{
    printf(" sourceIPv4Address=%u.%u.%u.%u", source >> 24, source >> 16 & 255, source >> 8 & 255, source & 255);
}

static void write_session(fbExporter_t *exporter)
{
    fBuf_t *buffer = fBufAllocForExport(session, exporter);
    struct flow4 flow;
    fBufSetExportTime(buffer, TIME);
    add(TRUE, 256, flow4_inside, 0);
    add(TRUE, 257, flow6_both, 0);
    add(TRUE, 258, interface_inside, 0);
    fbSessionSetDomain(session, 7);
    add(FALSE, 256, flow4_outside, 0);
    add(FALSE, 258, interface_outside, 1);
    for (unsigned number = 0; number < 600; number++) {
        flow = make_flow4(number);
        append(buffer, 256, &flow, sizeof flow);
        printf("d=7 t=256 x=%u s=0 flowStartMilliseconds=%" PRIu64 " flowEndMilliseconds=%" PRIu64, TIME, flow.start,
               flow.end);
        print_source(flow.source);
        printf(" sourceTransportPort=%u protocolIdentifier=%u", flow.port, flow.protocol);
        print_octets("e0.82", &flow.interface);
        print_octets("e32473.17", &flow.own);
        printf(" octetDeltaCount=%" PRIu64 " packetDeltaCount=%" PRIu64 "\n", flow.octets, flow.packets);
        if (number % 100 == 0) {
            struct interface interface = {flow.interface, number};
            append(buffer, 258, &interface, sizeof interface);
            printf("d=7 t=258 x=%u s=1 ingressInterface=%u", TIME, number);
            print_octets("e0.82", &interface.name);
            printf("\n");
        }
    }
    /* Another domain has another template under the same id, and its own sequence. */
    TRY(fBufEmit(buffer, &err));
    fbSessionSetDomain(session, 4294967295);
    add(FALSE, 257, flow6_both, 0);
    for (unsigned number = 0; number < 300; number++) {
        struct flow6 flow6 = {.octets = UINT64_MAX - number, .start = TIME + number, .end = TIME + 2 * number};
        memcpy(flow6.source, "\x20\x01\x0d\xb8\0\0\0\0\0\0\0\0\0\0\0\0", 16);
        flow6.source[15] = number % 7, flow6.mac[5] = number % 256;
        uint32_t *hop = fbBasicListInit(&flow6.hops, 3, fbInfoModelGetElementByName(model, "ipNextHopIPv4Address"),
                                        number % 3);
        printf("d=4294967295 t=257 x=%u s=0 e0.291=0x03000f0004", TIME);
        for (unsigned i = 0; i < number % 3; i++) hop[i] = 0x0a000001 + i, printf("%08x", hop[i]);
        printf(" octetDeltaCount=%" PRIu64 " flowStartSeconds=%u flowEndSeconds=%u sourceIPv6Address="
               "2001:0db8:0000:0000:0000:0000:0000:%04x sourceMacAddress=00:00:00:00:00:%02x paddingOctets=0x0000\n",
               flow6.octets, flow6.start, flow6.end, number % 7, number % 256);
        append(buffer, 257, &flow6, sizeof flow6);
        fbBasicListClear(&flow6.hops);
    }
    /* The first domain withdraws its template and defines another under its id. */
    TRY(fBufEmit(buffer, &err));
    fbSessionSetDomain(session, 7);
    TRY(fbSessionRemoveTemplate(session, FALSE, 256, &err));
    add(FALSE, 256, flow4_outside_again, 0);
    for (unsigned number = 600; number < 700; number++) {
        flow = make_flow4(number);
        append(buffer, 256, &flow, sizeof flow);
        printf("d=7 t=256 x=%u s=0 packetDeltaCount=%" PRIu64 " octetDeltaCount=%" PRIu64, TIME, flow.packets,
               flow.octets);
        print_source(flow.source);
        printf(" flowEndMilliseconds=%" PRIu64 " flowStartMilliseconds=%" PRIu64 "\n", flow.end, flow.start);
    }
    TRY(fBufEmit(buffer, &err));
    fBufFree(buffer);
}

static uint64_t number(const uint8_t *octets, size_t size)
{
    uint64_t wide = 0;
    memcpy(&wide, octets, size);
    return wide;
}

/* Every field of every record is printed, by the type that libfixbuf knows for its element (on a machine whose numbers
 * begin with their lowest octet). */
static void read_table(const char *path)
{
    fbCollector_t *collector;
    fbTemplate_t *inside = NULL;
    uint8_t record[65536], *field;
    TRY(collector = fbCollectorAllocFile(NULL, path, &err));
    fBuf_t *buffer = fBufAllocForCollection(session, collector);
    for (;;) {
        size_t size = sizeof record;
        uint16_t id;
        fbTemplate_t *outside = fBufNextCollectionTemplate(buffer, &id, &err);
        if (!outside) break;
        if (!inside) {
            inside = fbTemplateAlloc(model);
            for (uint32_t i = 0; i < fbTemplateCountElements(outside); i++) {
                fbInfoElement_t *element = fbTemplateGetIndexedIE(outside, i);
                TRY(fbTemplateAppend(inside, element, &err));
                printf("%s%s", i ? "," : "", element->ref.canon->ref.name);
            }
            puts("");
            TRY(fbSessionAddTemplate(session, TRUE, id, inside, &err));
        }
        TRY(fBufSetInternalTemplate(buffer, id, &err));
        TRY(fBufNext(buffer, record, &size, &err));
        field = record;
        for (uint32_t i = 0; i < fbTemplateCountElements(inside); i++) {
            fbInfoElement_t *element = fbTemplateGetIndexedIE(inside, i);
            if (i) printf(",");
            switch (element->type) {
            case FB_IP4_ADDR:
                printf("%u.%u.%u.%u", field[3], field[2], field[1], field[0]);
                break;
            case FB_IP6_ADDR:
                for (int k = 0; k < 16; k++) printf("%s%02x", k && k % 2 == 0 ? ":" : "", field[k]);
                break;
            case FB_MAC_ADDR:
                for (int k = 0; k < 6; k++) printf("%s%02x", k ? ":" : "", field[k]);
                break;
            default:
                printf("%" PRIu64, number(field, element->len));
            }
            field += element->len;
        }
        puts("");
    }
    TRY(g_error_matches(err, FB_ERROR_DOMAIN, FB_ERROR_EOF));
}

int main(int count, char **words)
{
    fbInfoElement_t own = FB_IE_INIT("ownOctets", 32473, 17, FB_IE_VARLEN, FB_IE_F_NONE);
    model = fbInfoModelAlloc();
    fbInfoModelAddElement(model, &own);
    session = fbSessionAlloc(model);
    if (count == 3 && !strcmp(words[1], "write")) {
        write_session(fbExporterAllocFile(words[2]));
    } else if (count == 4 && (!strcmp(words[1], "send") || !strcmp(words[1], "datagrams"))) {
        fbConnSpec_t target = {
            .transport = words[1][0] == 's' ? FB_TCP : FB_UDP, .host = words[2], .svc = words[3]};
        waits = target.transport == FB_UDP ? 1000 : 0;
        write_session(fbExporterAllocNet(&target));
    } else if (count == 3 && !strcmp(words[1], "read")) {
        read_table(words[2]);
    } else {
        fputs("fixbuf write FILE | send HOST PORT | datagrams HOST PORT | read FILE\n", stderr);
        return 2;
    }
}
