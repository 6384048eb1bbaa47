// The only program of the guest, its process 1. It mounts the disk whose power will be cut, and does one of two
// things, by the kernel's command line:
//
//   pl.mode=work    makes an image, sends the messages of /lines0 to `psu run` or `psu serve`, and reports each
// confirmation on the second disk; with pl.clients=N those of /lines0, /lines1 .. by as many sessions at once
//   pl.mode=check   mounts one crash image after another, which the host puts into the disk, copies what is in it to
// the second disk, opens it with `psu recover`, and copies what that printed and what is there then
//
// The second disk is a mailbox. Sector 0: what the guest says (MARK n, NEXT); sector 1: what the host answers (GO,
// STOP); from 1 MiB on: a copied image; from REPORT on what `psu recover` printed, behind a sector with its status and
// length; from AFTER on the image after it. The number of a mark is that of the line, and the client times CLIENT.
#define _GNU_SOURCE
#include <arpa/inet.h>
#include <errno.h>
#include <fcntl.h>
#include <linux/fs.h>
#include <net/if.h>
#include <stdarg.h>
#include <stdint.h>
#include <stdio.h>
#include <stdlib.h>
#include <string.h>
#include <sys/ioctl.h>
#include <sys/mount.h>
#include <sys/reboot.h>
#include <sys/socket.h>
#include <sys/stat.h>
#include <sys/syscall.h>
#include <sys/wait.h>
#include <unistd.h>

#define IMAGE "/mnt/bench.psu"
#define IMAGE_SIZE 263168
#define ROOM (1 << 20)
#define REPORT ((1 << 20) + (512 << 10))
#define REPORT_ROOM (64 << 10)
#define AFTER ((1 << 20) + (640 << 10))
#define CLIENT 100000
#define CONFIRMED "1;0,\"No error\"\n"

static char words[4096];
static char *sector;
static int mailbox = -1;

static void stop(void)
{
    fflush(stdout);
    reboot(RB_POWER_OFF);
    for (;;)
        pause();
}

static void fail(const char *form, ...)
{
    va_list list;
    va_start(list, form);
    printf("FAULT: ");
    vprintf(form, list);
    printf(" (%s)\n", strerror(errno));
    stop();
}

// The value of pl.NAME on the kernel's command line, or nothing.
static const char *word(const char *name)
{
    static char found[512];
    char key[64];
    snprintf(key, sizeof key, "pl.%s=", name);
    const char *at = strstr(words, key);
    if (!at)
        return "";
    at += strlen(key);
    size_t length = strcspn(at, " \n");
    snprintf(found, sizeof found, "%.*s", (int)length, at);
    return strdup(found);
}

static void load_modules(void)
{
    FILE *list = fopen("/modules", "r");
    char path[512];
    while (list && fscanf(list, "%511s", path) == 1) {
        int file = open(path, O_RDONLY | O_CLOEXEC);
        // A module for instructions that this processor lacks is not needed.
        if (file < 0 || (syscall(SYS_finit_module, file, "", 0) && errno != EEXIST && errno != ENODEV))
            fail("module %s", path);
        close(file);
    }
}

// Writes sectors of the mailbox past the page cache, so that the host sees them at once.
static void put(const void *bytes, size_t length, off_t at)
{
    if (pwrite(mailbox, bytes, length, at) != (ssize_t)length)
        fail("mailbox");
}

static void say(const char *text, unsigned number)
{
    memset(sector, 0, 512);
    snprintf(sector, 512, "%s %u", text, number);
    put(sector, 512, 0);
}

static void begin(void)
{
    mkdir("/proc", 0755), mkdir("/dev", 0755), mkdir("/mnt", 0755), mkdir("/tmp", 0755);
    mount("proc", "/proc", "proc", 0, "");
    mount("dev", "/dev", "devtmpfs", 0, "");
    FILE *line = fopen("/proc/cmdline", "r");
    if (!line || !fgets(words, sizeof words, line))
        fail("command line");
    load_modules();
    for (int tries = 0; tries < 500 && access("/dev/vdb", F_OK); tries++)
        usleep(10000);
    mailbox = open("/dev/vdb", O_RDWR | O_DIRECT | O_CLOEXEC);
    if (mailbox < 0 || posix_memalign((void **)&sector, 4096, ROOM))
        fail("mailbox");
}

static int mount_disk(void)
{
    return mount("/dev/vda", "/mnt", word("fs"), 0, word("options"));
}

// ---- work

// Creates, renames, syncs and deletes files beside the image until the power is cut.
static void disturb(void)
{
    mkdir("/mnt/noise", 0755);
    for (unsigned turn = 0;; turn++) {
        char name[64], other[64], bytes[3000];
        snprintf(name, sizeof name, "/mnt/noise/%u", turn % 40);
        snprintf(other, sizeof other, "/mnt/noise/r%u", turn % 23);
        memset(bytes, turn, sizeof bytes);
        int file = open(name, O_CREAT | O_TRUNC | O_WRONLY, 0644);
        if (file >= 0) {
            if (write(file, bytes, 1 + turn * 37 % sizeof bytes) < 0 || (turn % 3 == 0 && fsync(file)))
                errno = 0;
            close(file);
        }
        rename(name, other);
        if (turn % 7 == 0)
            unlink(other);
        usleep(3000);
    }
}

static pid_t start(const char *command, const char *port, int input, int output)
{
    pid_t child = fork();
    if (child)
        return child;
    if (input >= 0)
        dup2(input, 0);
    if (output >= 0)
        dup2(output, 1);
    if (*word("drop")) {
        setenv("PL_DROP", word("drop"), 1);
        setenv("LD_PRELOAD", "/losing.so", 1);
    }
    execl("/psu", "psu", command, IMAGE, port ? "--port" : (char *)0, port, (char *)0);
    _exit(127);
}

static void make_image(void)
{
    int status;
    if (waitpid(start("make", NULL, -1, -1), &status, 0) < 0 || status)
        fail("psu make");
}

// A way to psu: the pipes of `psu run`, or the synchronous connection of HiSLIP.
struct channel {
    int in, out, is_hislip, is_delivered;
    uint32_t message;
};

static void exactly(int file, void *bytes, size_t length)
{
    for (size_t got = 0; got < length;) {
        ssize_t more = read(file, (char *)bytes + got, length - got);
        if (more <= 0)
            fail("psu has ended");
        got += more;
    }
}

static void frame(int file, int type, int control, uint32_t parameter, const char *payload, size_t length)
{
    unsigned char head[16] = {'H', 'S', type, control};
    uint32_t value = htonl(parameter), size = htonl(length);
    memcpy(head + 4, &value, 4);
    memcpy(head + 12, &size, 4);
    if (write(file, head, 16) != 16 || write(file, payload, length) != (ssize_t)length)
        fail("psu has ended");
}

// Reads a frame: its type, its parameter, and its payload behind what is there.
static int receive(int file, uint32_t *parameter, char *text, size_t *length)
{
    unsigned char head[16];
    uint32_t size;
    exactly(file, head, 16);
    memcpy(&size, head + 12, 4);
    memcpy(parameter, head + 4, 4);
    *parameter = ntohl(*parameter), size = ntohl(size);
    exactly(file, text + *length, size);
    *length += size;
    return head[2];
}

static void send_line(struct channel *to, const char *line)
{
    if (to->is_hislip) {
        frame(to->out, 7, to->is_delivered, to->message, line, strlen(line));
        to->message += 2, to->is_delivered = 0;
    } else if (write(to->out, line, strlen(line)) != (ssize_t)strlen(line)) {
        fail("psu has ended");
    }
}

static void read_response(struct channel *from, char *text)
{
    size_t length = 0;
    uint32_t parameter;
    if (from->is_hislip)
        while (receive(from->in, &parameter, text, &length) != 7)
            ;
    else
        do
            exactly(from->in, text + length, 1);
        while (text[length++] != '\n');
    text[length] = 0;
    from->is_delivered = 1;
}

static int dial(void)
{
    struct sockaddr_in to = {.sin_family = AF_INET, .sin_port = htons(4880), .sin_addr.s_addr = htonl(INADDR_LOOPBACK)};
    int made = socket(AF_INET, SOCK_STREAM | SOCK_CLOEXEC, 0);
    if (made < 0 || connect(made, (struct sockaddr *)&to, sizeof to))
        fail("connect");
    return made;
}

// Starts the server, and returns once it listens.
static void start_server(void)
{
    struct ifreq lo = {.ifr_name = "lo", .ifr_flags = IFF_UP};
    int ends[2], net = socket(AF_INET, SOCK_DGRAM | SOCK_CLOEXEC, 0);
    if (ioctl(net, SIOCSIFFLAGS, &lo) || pipe2(ends, O_CLOEXEC))
        fail("lo");
    start("serve", "4880", -1, ends[1]);
    char text[256];
    size_t length = 0;
    do
        exactly(ends[0], text + length, 1);
    while (text[length++] != '\n');
}

static struct channel open_session(void)
{
    char text[256];
    size_t length = 0;
    uint32_t session;
    int first = dial();
    frame(first, 0, 0, 0x01000000, "hislip0", 7);
    receive(first, &session, text, &length);
    int second = dial();
    frame(second, 17, 0, session & 0xffff, "", 0);
    receive(second, &session, text, &length);
    return (struct channel){first, first, 1, 0, 0xffffff00};
}

static struct channel open_run(void)
{
    int in[2], out[2];
    if (pipe2(in, O_CLOEXEC) || pipe2(out, O_CLOEXEC))
        fail("pipe");
    start("run", NULL, in[0], out[1]);
    return (struct channel){out[0], in[1], 0, 0, 0};
}

// Sends the lines of a client, and reports each confirmation.
static void converse(unsigned client, struct channel psu)
{
    char path[32];
    snprintf(path, sizeof path, "/lines%u", client);
    FILE *lines = fopen(path, "r");
    char *text = malloc(ROOM), *line = malloc(ROOM);
    for (unsigned count = 1; lines && fgets(line, ROOM, lines); count++) {
        send_line(&psu, line);
        if (!strchr(line, '?'))
            continue;
        read_response(&psu, text);
        if (strcmp(text, CONFIRMED))
            fail("line %u of client %u is answered %s", count, client, text);
        say("MARK", client * CLIENT + count);
        printf("confirmed %u of client %u\n", count, client);
    }
}

// Several sessions at once, each with its own lines.
static void converse_at_once(unsigned clients)
{
    pid_t children[16];
    int status;
    for (unsigned client = 0; client < clients; client++) {
        children[client] = fork();
        if (!children[client]) {
            converse(client, open_session());
            _exit(0);
        }
    }
    for (unsigned client = 0; client < clients; client++)
        if (waitpid(children[client], &status, 0) < 0 || status)
            fail("client %u", client);
}

static void work(void)
{
    if (mount_disk())
        fail("mount");
    make_image();
    say("MARK", 0);
    if (*word("noise") && !fork())
        disturb();
    unsigned clients = atoi(word("clients"));
    if (clients || *word("serve"))
        start_server();
    if (clients)
        converse_at_once(clients);
    else
        converse(0, *word("serve") ? open_session() : open_run());
    say("DONE", 0);
}

// ---- check

// Has btrfs forget the device, which it knows under a later generation than that of the next crash image.
static void forget(void)
{
    struct {
        int64_t fd;
        char name[4088];
    } device = {0, "/dev/vda"};
    int control = open("/dev/btrfs-control", O_RDWR | O_CLOEXEC);
    if (control >= 0) {
        ioctl(control, _IOW(0x94, 5, device), &device);
        close(control);
    }
}

// Copies the image to a place of the mailbox. Returns its length, or -1 where there is none.
static ssize_t copy_image(off_t to)
{
    int file = open(IMAGE, O_RDONLY | O_CLOEXEC);
    ssize_t length = -1;
    memset(sector, 0, IMAGE_SIZE + 512);
    if (file >= 0) {
        length = 0;
        for (ssize_t more; length < IMAGE_SIZE && (more = read(file, sector + length, IMAGE_SIZE - length)) > 0;)
            length += more;
        close(file);
    }
    if (length >= 0)
        put(sector, IMAGE_SIZE, to);
    return length;
}

// Opens the image with `psu recover`, and copies its exit status and what it printed.
static void recover(void)
{
    int ends[2], status;
    size_t length = 0;
    if (pipe2(ends, O_CLOEXEC))
        fail("pipe");
    pid_t child = start("recover", NULL, -1, ends[1]);
    close(ends[1]);
    memset(sector, 0, REPORT_ROOM);
    for (ssize_t more; length < REPORT_ROOM - 1024 && (more = read(ends[0], sector + 512 + length, REPORT_ROOM - 1024 - length)) > 0;)
        length += more;
    close(ends[0]);
    if (waitpid(child, &status, 0) < 0)
        fail("psu recover");
    snprintf(sector, 512, "%d %zu", WIFEXITED(status) ? WEXITSTATUS(status) : -1, length);
    put(sector, REPORT_ROOM, REPORT);
}

static void look_at_image(void)
{
    ssize_t length = copy_image(1 << 20);
    if (length >= 0) {
        recover();
        copy_image(AFTER);
    }
    umount("/mnt");
    say(length < 0 ? "NOFILE" : "IMAGE", length < 0 ? 0 : length);
}

static void check(void)
{
    for (;;) {
        say("NEXT", 0);
        if (pread(mailbox, sector, 512, 512) != 512)
            fail("mailbox");
        if (strncmp(sector, "GO", 2))
            return;
        int disk = open("/dev/vda", O_RDONLY | O_CLOEXEC);
        ioctl(disk, BLKFLSBUF, 0);
        close(disk);
        forget();
        if (mount_disk())
            say("NOMOUNT", errno);
        else
            look_at_image();
    }
}

int main(void)
{
    setvbuf(stdout, NULL, _IOLBF, 0);
    begin();
    if (!strcmp(word("mode"), "work"))
        work();
    else
        check();
    stop();
}
