/* Marks the first path of the gasket in gasket.txt: prints cut. */
#include <bisquefern.h>
#include <stdio.h>

int main(void)
{
    double outline[12] = {20, 0, 0, 80, 0, 1, 80, 40, 0, 20, 40, 1};
    bf_record path = {0, 2, {50, 0, 0}, 0, {50, 40}, 0, 17};
    uint8_t cut = 0;
    uint8_t refusal = bf_view_mark(outline, 12, 1, &path, sizeof path, BF_LINE_LIMIT, &cut, 1);
    puts(refusal == 0 && cut == 1 ? "cut" : "hold");
}
