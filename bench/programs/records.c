/* A shop's records, of Dhrystone's kind: a list of records with names, which are found by comparing, copied, changed
   by what they are, and put back by functions that call each other. */
#include "program.h"

#define ARTICLES 5
#define ORDERS 1000
#define NAME 32

enum kind { COUNTED, WEIGHED, BOXED, ENDED };

struct article {
    struct article *next;
    enum kind kind;
    int32_t amount;
    int32_t price;
    int32_t sold[3];
    char name[NAME];
};

static struct article articles[ARTICLES];
static struct article *all;
static int32_t prices[ARTICLES][4];
static char label[NAME];

#define CALLED __attribute__((noinline))

static CALLED void copy_text(char *to, const char *from)
{
    while ((*to++ = *from++) != '\0') {
    }
}

static CALLED int compare(const char *left, const char *right)
{
    while (*left != '\0' && *left == *right) {
        left++;
        right++;
    }
    return (int)(uint8_t)*left - (int)(uint8_t)*right;
}

/* The name of the article of this number. */
static CALLED void name_of(char *name, uint32_t number)
{
    copy_text(name, "An article of the shop, no. ?");
    name[28] = (char)('0' + number % 10);
}

static CALLED struct article *found(const char *name)
{
    struct article *article = all;
    while (article != NULL && compare(article->name, name) != 0)
        article = article->next;
    return article;
}

static CALLED int32_t price_of(const struct article *article, int32_t amount)
{
    switch (article->kind) {
    case COUNTED:
        return amount * article->price;
    case WEIGHED:
        return amount * article->price / 1000 + 1;
    case BOXED:
        return (amount + 11) / 12 * article->price;
    default:
        return 0;
    }
}

static CALLED enum kind kind_after(enum kind kind, bool is_empty)
{
    if (is_empty)
        return ENDED;
    return kind == ENDED ? COUNTED : kind;
}

/* Sells `amount` of an article, or buys new ones where there are too few. */
static CALLED int32_t sell(struct article *article, int32_t amount, int32_t *till)
{
    struct article changed = *article;
    int32_t price = price_of(&changed, amount);
    if (changed.amount < amount) {
        changed.amount += 1000;
        changed.kind = (enum kind)((changed.kind + 1) % ENDED);
    } else {
        changed.amount -= amount;
        changed.kind = kind_after(changed.kind, changed.amount == 0);
        changed.sold[amount % 3] += amount;
    }
    *till += price;
    *article = changed;
    return price;
}

static CALLED void write_label(char *text, int32_t price)
{
    char digits[12];
    int count = 0;
    do {
        digits[count++] = (char)('0' + price % 10);
        price /= 10;
    } while (price != 0);
    while (count > 0)
        *text++ = digits[--count];
    *text = '\0';
}

static void open_shop(void)
{
    all = NULL;
    for (uint32_t i = 0; i < ARTICLES; i++) {
        struct article *article = &articles[i];
        article->next = all;
        article->kind = (enum kind)(i % ENDED);
        article->amount = 500;
        article->price = (int32_t)(7 * i + 3);
        name_of(article->name, i);
        all = article;
    }
}

static int32_t order(uint64_t random, int32_t *till)
{
    char name[NAME];
    uint32_t number = (uint32_t)(random % ARTICLES);
    int32_t amount = (int32_t)(random >> 32 & 63);
    name_of(name, number);
    struct article *article = found(name);
    int32_t price = sell(article, amount, till);
    prices[number][amount & 3] = (prices[number][amount & 3] + price) % 10007;
    write_label(label, price);
    return compare(label, "1") < 0 ? 1 : price;
}

uint64_t checksum(uint64_t rounds)
{
    uint64_t state = 1, sum = 0;
    int32_t till = 0;
    open_shop();
    for (uint64_t i = 0; i < rounds * ORDERS; i++) {
        sum = sum * 31 + (uint64_t)order(next_random(&state), &till);
        till %= 1000003;
    }
    for (size_t i = 0; i < ARTICLES; i++)
        sum = sum * 31 + (uint64_t)(articles[i].amount + articles[i].sold[0]);
    return sum + (uint64_t)till;
}
