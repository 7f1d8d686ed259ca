/* Random numbers, and texts that are made of them. */
#include "jobs.h"

/* SplitMix64, by Steele, Lea and Flood. */
uint64_t next_number(struct chance *chance)
{
    uint64_t mixed = chance->state += 0x9e3779b97f4a7c15;
    mixed = (mixed ^ (mixed >> 30)) * 0xbf58476d1ce4e5b9;
    mixed = (mixed ^ (mixed >> 27)) * 0x94d049bb133111eb;
    return mixed ^ (mixed >> 31);
}

/* A number from 0 to `count - 1`. */
size_t below(struct chance *chance, size_t count)
{
    return (size_t)(next_number(chance) % count);
}

/* A number from `least` to `most`. */
size_t between(struct chance *chance, size_t least, size_t most)
{
    return least + below(chance, most - least + 1);
}

/* The names of a JSON object's members. */
static const char *const names[] = {"user", "text", "room", "price", "at", "status", "title", "payload"};

/* Values that are no string. */
static const char *const literals[] = {"true", "false", "null", "[]"};

/* Words as they stand in messages, most of them ASCII. */
static const char *const usual_words[] = {
    "the", "quick", "order", "was", "filled", "at", "noon", "by",
    "Anna", "and", "shipped", "to", "Malmö", "for", "free", "today",
};

/* Words of several scripts: characters of one to four bytes. */
static const char *const mixed_words[] = {
    "привет", "天気", "naïve", "ok", "😀", "как", "dela", "今日は",
    "où", "€", "😎👍", "да", "é", "спасибо", "no", "東京",
};

/* Adds words, of sixteen, until the text has `wanted` bytes. */
static void put_words(struct chance *chance, const char *const *words, size_t wanted, struct bytes *text)
{
    while (text->size < wanted) {
        put_text(text, words[below(chance, 16)]);
        put_text(text, " ");
    }
}

/* Adds a member of a JSON object. */
static void put_member(struct chance *chance, struct bytes *text)
{
    put_text(text, ",\"");
    put_text(text, names[below(chance, 8)]);
    put_text(text, "\":");
    switch (below(chance, 4)) {
    case 0:
        put_number(text, below(chance, 100000));
        break;
    case 1:
        put_text(text, literals[below(chance, 4)]);
        break;
    default:
        put_text(text, "\"");
        put_words(chance, usual_words, text->size + 20, text);
        put_text(text, "\"");
    }
}

/* Adds a JSON object of about `wanted` bytes. */
void put_json(struct chance *chance, size_t wanted, struct bytes *text)
{
    put_text(text, "{\"id\":");
    put_number(text, below(chance, 1000000));
    while (text->size < wanted)
        put_member(chance, text);
    put_text(text, "}");
}

/* Adds a message of a chat or a feed: a JSON object of 50 to 2,000 bytes, more often a short one. */
void put_message(struct chance *chance, struct bytes *text)
{
    size_t most = between(chance, 50, 2000);
    put_json(chance, between(chance, 50, most), text);
}

/* Adds a text of several scripts, of about `wanted` bytes. */
void put_mixed(struct chance *chance, size_t wanted, struct bytes *text)
{
    put_words(chance, mixed_words, wanted, text);
}

/* Adds a tick of a market: 10 to some 60 bytes of ASCII. */
void put_tick(struct chance *chance, struct bytes *text)
{
    size_t sizes;
    put_text(text, "{\"p\":");
    put_number(text, below(chance, 10000));
    put_text(text, "}");
    for (sizes = below(chance, 6); sizes > 0; sizes--) {
        put_text(text, ",");
        put_number(text, below(chance, 100000000));
    }
}
