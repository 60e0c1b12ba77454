/* The least that reading a document can cost: each byte looked at once, and the
 * two work areas zeroed. */
typedef unsigned char byte;
typedef unsigned int number;
typedef __SIZE_TYPE__ size;

/* The bytes added up. */
size pass_sum(const byte *document, size len)
{
    size sum = 0;
    for (size i = 0; i < len; i++)
        sum += document[i];
    return sum;
}

/* The same in 32 bits, which clang does in vectors where it does not do the first. */
number pass_sum_short(const byte *document, size len)
{
    number sum = 0;
    for (size i = 0; i < len; i++)
        sum += document[i];
    return sum;
}

void pass_zero(number *numbers, size numbers_len, byte *bytes, size bytes_len)
{
    for (size i = 0; i < numbers_len; i++)
        numbers[i] = 0;
    for (size i = 0; i < bytes_len; i++)
        bytes[i] = 0;
}
