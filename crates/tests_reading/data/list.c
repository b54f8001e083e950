# 1 "list.c"
# 1 "<built-in>"
# 1 "list.c"
extern void *malloc(unsigned long size);
extern void free(void *);
# 3 "list.c" 2

struct node {
    int value;
    struct node *next;
};

typedef struct node node, *list;

/* a new first node */
list push(list rest, int value)
{
    node *first;

    first = (node *)malloc(sizeof(node));
    if (!first)
        return (list)0;
    first->value = value;
    first->next = rest;
    return first;
}

list reversed(list l)
{
    list done = (list)0, next;

    while (l) { // one node after the other
        next = l->next;
        l->next = done;
        done = l;
        l = next;
    }
    return done;
}

long sum(const node *l)
{
    long total = 0;

    for (; l != (const node *)0; l = l->next)
        total += l->value;
    return total;
}

void drop(list l)
{
    list next;

    do {
        if (!l)
            return;
        next = l->next;
        free((void *)l);
        l = next;
    } while (1);
}
