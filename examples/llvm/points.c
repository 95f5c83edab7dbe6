// Structs: fields, an array in a struct, and a struct that is returned.
struct point {
    int x, y;
};

struct shape {
    char name[8];
    struct point corners[4];
    double weight;
};

struct point center(const struct shape *shape)
{
    struct point found = {0, 0};
    for (int i = 0; i < 4; i++) {
        found.x += shape->corners[i].x;
        found.y += shape->corners[i].y;
    }
    found.x /= 4;
    found.y /= 4;
    return found;
}
