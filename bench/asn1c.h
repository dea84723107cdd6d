/* Shared by the works in code that asn1c generates: a value is appended to a buffer, and read from the beginning of an
 * input. Include buffer.h first. */
#include <asn_application.h>
#include <per_decoder.h>
#include <per_encoder.h>

static int put(const void *octets, size_t count, void *buffer)
{
    return put_octets(buffer, octets, count) ? 0 : -1;
}

static int put_value(struct buffer *b, asn_TYPE_descriptor_t *type, void *value)
{
    return uper_encode(type, value, put, b).encoded >= 0;
}

static int get_value(struct input *in, asn_TYPE_descriptor_t *type, void **value)
{
    asn_dec_rval_t r;
    size_t taken;
    *value = NULL;
    r = uper_decode(0, type, value, in->octets, in->count, 0, 0);
    taken = (r.consumed + 7) / 8;
    if (r.code != RC_OK)
        return 0;
    in->octets += taken;
    in->count -= taken;
    return 1;
}
