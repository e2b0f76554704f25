/* picture text INPUT OUTPUT, picture svg INPUT OUTPUT: draws the surface that the program `freelist` left, from its input
 * and from what it printed. Exit status 0; 1, and nothing drawn, where input and output do not fit together; 2 where the
 * tool was called wrongly or a file could not be read or written.
 *
 * Build: cd tools/picture && gcc -std=c11 -O2 -o picture picture.c replay.c surface.c text.c svg.c */
#include "picture.h"

#include <string.h>

enum { MISFIT = 1, TROUBLE = 2 };

static int trouble(const char *what, const char *name)
{
    fprintf(stderr, "picture: %s%s\n", what, name);
    return TROUBLE;
}

static int draw(const char *form, const struct surface *s, const struct list *list)
{
    if (strcmp(form, "svg") == 0)
        draw_svg(s, list);
    else
        draw_text(s, list);
    return fflush(stdout) == 0 && !ferror(stdout) ? 0 : trouble("cannot write", "");
}

/* The two files read to their end, and drawn. */
static int picture(const char *form, FILE *input, FILE *output)
{
    static struct surface s;
    static struct list list;
    bool fits = replay(input, output, &s, &list);
    if (ferror(input) || ferror(output))
        return trouble("cannot read the ", ferror(input) ? "input" : "output");
    return fits ? draw(form, &s, &list) : MISFIT;
}

int main(int count, char **argument)
{
    if (count != 4 || (strcmp(argument[1], "text") != 0 && strcmp(argument[1], "svg") != 0))
        return trouble("usage: picture text|svg INPUT OUTPUT", "");
    FILE *input = fopen(argument[2], "rb");
    if (input == NULL)
        return trouble("cannot open ", argument[2]);
    FILE *output = fopen(argument[3], "rb");
    if (output == NULL) {
        fclose(input);
        return trouble("cannot open ", argument[3]);
    }
    int status = picture(argument[1], input, output);
    fclose(input);
    fclose(output);
    return status;
}
