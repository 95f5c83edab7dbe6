// A switch.
int days(int month, int leap)
{
    switch (month) {
    case 2:
        return 28 + leap;
    case 4:
    case 6:
    case 9:
    case 11:
        return 30;
    default:
        return 31;
    }
}
