/* Shows the mail that standard input has in the form of mbox: of each message the sender, the subject and the text.

   It is built in variants:

   ENCRYPTED  reads texts in cipher
   PHONE      has a narrow screen
   THREADS    indents replies below what they answer
   SEARCH     shows the messages that have a word, its argument
   SPAM       leaves out what a filter has marked
   LOG        tells on standard error what was read

   A phone has no room for threads. */
#include <ctype.h>
#include <stdio.h>
#include <string.h>

#define MESSAGES 64
#define HEAD 80
#define TEXT 4096

#if defined(PHONE)
#define WIDTH 24
#elif defined(THREADS)
#define WIDTH 48
#define STEP 4
#else
#define WIDTH 60
#endif

struct message {
    char from[HEAD];
    char subject[HEAD];
    char text[TEXT];
#ifdef ENCRYPTED
    int in_cipher;
#endif
#ifdef THREADS
    char id[HEAD];
    char answers[HEAD];
    int depth;
#endif
#ifdef SPAM
    int is_spam;
#endif
};

static struct message messages[MESSAGES];
static int count;

/* What stands behind the name of a header, or NULL where the line is another one. */
static const char *value(const char *line, const char *name)
{
    size_t length = strlen(name);
    if (strncmp(line, name, length) != 0 || line[length] != ':')
        return NULL;
    for (line += length + 1; *line == ' '; line++)
        ;
    return line;
}

static void keep(char *head, const char *found)
{
    if (found != NULL)
        snprintf(head, HEAD, "%s", found);
}

static void take_header(struct message *message, const char *line)
{
    keep(message->from, value(line, "From"));
    keep(message->subject, value(line, "Subject"));
#ifdef THREADS
    keep(message->id, value(line, "Message-ID"));
    keep(message->answers, value(line, "In-Reply-To"));
#endif
#ifdef ENCRYPTED
    if (value(line, "Cipher") != NULL)
        message->in_cipher = strcmp(value(line, "Cipher"), "rot13") == 0;
#endif
#ifdef SPAM
    if (value(line, "X-Spam") != NULL)
        message->is_spam = strcmp(value(line, "X-Spam"), "yes") == 0;
#endif
}

static void take_text(struct message *message, const char *line)
{
    size_t length = strlen(message->text);
    snprintf(message->text + length, TEXT - length, "%s\n", line);
}

static void read_all(void)
{
    char line[TEXT];
    int in_head = 0;
    while (fgets(line, sizeof line, stdin) != NULL) {
        line[strcspn(line, "\n")] = 0;
        if (strncmp(line, "From ", 5) == 0) {
            if (count == MESSAGES)
                return;
            count++;
            in_head = 1;
        } else if (in_head && line[0] == 0) {
            in_head = 0;
        } else if (in_head) {
            take_header(&messages[count - 1], line);
        } else if (count > 0) {
            take_text(&messages[count - 1], line);
        }
    }
}

#ifdef ENCRYPTED
/* Turns each letter into the one 13 places on. */
static void decode(char *text)
{
    for (; *text != 0; text++) {
        if (*text >= 'a' && *text <= 'z')
            *text = 'a' + (*text - 'a' + 13) % 26;
    }
}
#endif

#ifdef THREADS
/* A reply stands one step below what it answers, which comes before it. */
static void find_depth(int number)
{
    for (int other = 0; other < number; other++)
        if (messages[number].answers[0] != 0 && strcmp(messages[other].id, messages[number].answers) == 0)
            messages[number].depth = messages[other].depth + 1;
}
#endif

static void indent(const struct message *message)
{
#ifdef THREADS
    printf("%*s", STEP * message->depth, "");
#else
    (void)message;
#endif
}

/* Prints a line in as many as the screen wants. */
static void show_line(const struct message *message, const char *line, int length)
{
    while (length > WIDTH) {
        int end = WIDTH;
        while (end > 0 && !isspace((unsigned char)line[end]))
            end--;
        if (end == 0)
            end = WIDTH;
        indent(message);
        printf("%.*s\n", end, line);
        for (line += end, length -= end; length > 0 && *line == ' '; line++, length--)
            ;
    }
    indent(message);
    printf("%.*s\n", length, line);
}

static void show(const struct message *message)
{
    char head[2 * HEAD + 4];
#ifdef PHONE
    snprintf(head, sizeof head, "* %s", message->subject);
#else
    snprintf(head, sizeof head, "%s: %s", message->from, message->subject);
#endif
    show_line(message, head, strlen(head));
    for (const char *line = message->text; *line != 0;) {
        int length = strcspn(line, "\n");
        show_line(message, line, length);
        line += length + 1;
    }
}

static int is_wanted(const struct message *message, const char *word)
{
#ifdef SPAM
    if (message->is_spam)
        return 0;
#endif
#ifdef SEARCH
    if (word != NULL)
        return strstr(message->subject, word) != NULL || strstr(message->text, word) != NULL;
#endif
    (void)message;
    (void)word;
    return 1;
}

int main(int argc, char **argv)
{
    const char *word = argc > 1 ? argv[1] : NULL;
    int shown = 0;
    read_all();
    for (int number = 0; number < count; number++) {
        struct message *message = &messages[number];
#ifdef ENCRYPTED
        if (message->in_cipher)
            decode(message->text);
#endif
#ifdef THREADS
        find_depth(number);
#endif
        if (is_wanted(message, word)) {
            show(message);
            shown++;
        }
#if defined(LOG) && (defined(SEARCH) || defined(SPAM))
        else
            fprintf(stderr, "not shown: %s\n", message->subject);
#endif
    }
#ifdef LOG
    fprintf(stderr, "%d of %d shown\n", shown, count);
#endif
    return shown == 0;
}
