// A walk along a list, which is reversed in place.
struct node {
    int value;
    struct node *next;
};

struct node *reversed(struct node *list)
{
    struct node *found = 0;
    while (list) {
        struct node *next = list->next;
        list->next = found;
        found = list;
        list = next;
    }
    return found;
}

const struct node *find(const struct node *list, int value)
{
    while (list && list->value != value)
        list = list->next;
    return list;
}
