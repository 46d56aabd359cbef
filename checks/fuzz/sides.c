/* The product and the oracle: see sides.h. */
#include "sides.h"

#include "lent.h"
#include "oracle.h"

/* Its calls, and where they find a room. */
struct side {
    void *(*at)(enum room);
    uint32_t (*admit)(uint32_t, const uint8_t *, size_t);
    int64_t (*listing)(uint32_t, const uint8_t *, size_t, uint8_t *, size_t);
    uint32_t (*start)(yagomila_record *, uint32_t, const uint8_t *, size_t);
    uint32_t (*release)(yagomila_record *, size_t, uint64_t, size_t *, uint64_t *);
    uint32_t (*finish)(yagomila_record *, size_t, uint64_t, int64_t *);
    uint32_t (*look)(yagomila_record *, size_t, uint64_t, yagomila_choice *);
    uint32_t (*list)(const yagomila_record *, uint8_t *, size_t, int64_t *);
};

static const struct side first = {
    lent, yagomila_admit, yagomila_listing, yagomila_start, yagomila_release, yagomila_finish, yagomila_look, yagomila_list,
};
const struct side *const product = &first;
#ifdef ALONE
const struct side *const oracle = NULL;
#else
static const struct side second = {
    copied, oracle_admit, oracle_listing, oracle_start, oracle_release, oracle_finish, oracle_look, oracle_list,
};
const struct side *const oracle = &second;
#endif

struct asked asked;

int64_t release(const struct side *of)
{
    return -(int64_t)of->release(of->at(RECORD), asked.number, asked.time, of->at(ANSWER), of->at(SECOND));
}

int64_t finish(const struct side *of)
{
    return -(int64_t)of->finish(of->at(RECORD), asked.number, asked.time, of->at(ANSWER));
}

int64_t look(const struct side *of)
{
    return -(int64_t)of->look(of->at(RECORD), asked.number, asked.time, of->at(ANSWER));
}

int64_t start(const struct side *of)
{
    return -(int64_t)of->start(of->at(RECORD), asked.cores, of->at(TABLE), asked.table_len);
}

int64_t admit(const struct side *of)
{
    return -(int64_t)of->admit(asked.cores, of->at(TABLE), asked.table_len);
}

int64_t listing(const struct side *of)
{
    return of->listing(asked.cores, of->at(TABLE), asked.table_len, of->at(BUFFER), asked.buf_len);
}

int64_t list(const struct side *of)
{
    uint32_t refusal = of->list(of->at(RECORD), of->at(BUFFER), asked.buf_len, of->at(ANSWER));
    return refusal == 0 ? *(const int64_t *)of->at(ANSWER) : -(int64_t)refusal;
}
