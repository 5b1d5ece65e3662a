/*
 * Pilzhoon: EtherCAT EEPROM images (SII), checked, read and changed.
 *
 * The library keeps no state, prints nothing, opens nothing and starts no thread. A call that works on images, but pz_set_alias, takes memory
 * by malloc while it runs, a few times what it is given, and gives all of it back before it returns. So it may be called from several
 * threads at once, on different images, but not from a signal handler, nor from a task that must not wait for malloc.
 *
 * Every call that can be refused answers a pz_code, PZ_OK or why. A refused call changes nothing of what it was given, but for the detail of
 * pz_validate. pz_next answers a pz_progress: what is to be done next, or how an access ended. A switch over either is checked by the compiler.
 *
 * Bytes are those of an EEPROM image file: 16-bit words in order, the low byte first (ETG.1000.6, slave information interface).
 * No pointer may be NULL, except that of an array whose length is 0. Arrays that a call writes to may not overlap its other
 * arguments.
 */
#ifndef PILZHOON_H
#define PILZHOON_H

#include <stddef.h>
#include <stdint.h>

#ifdef __cplusplus
extern "C" {
#endif

/* The version of this header and its archive: another first number, or below 1 another second one, doesn't link with programs of this one. */
#define PZ_VERSION_MAJOR 0
#define PZ_VERSION_MINOR 2
#define PZ_VERSION_PATCH 0
#define PZ_VERSION "0.2.0"

/*
 * Why a call is refused. Numbers below 100 are those that the program sii_station prints, and `sii_station explain CODE` says more of each;
 * those of faults of a wire are from 100 to 199, and none of this library; from 200 on they are of this library alone.
 */
typedef enum pz_code {
    PZ_OK = 0,                    /* done */
    PZ_ODD_LENGTH = 1,            /* the number of bytes is odd */
    PZ_BAD_SIZE = 2,              /* the number of words is outside its limits */
    PZ_RUNS_OUT = 3,              /* a category is cut off */
    PZ_BAD_CATEGORY = 4,          /* the content of a category can't be read, or no category may have this type */
    PZ_NO_ROOM = 5,               /* the categories don't fit into the device */
    PZ_IMAGE_TOO_LONG = 14,       /* the image is longer than the device */
    PZ_BAD_CHECK = 15,            /* the check byte is wrong */
    PZ_NO_SUCH_CATEGORY = 16,     /* there is no such category */
    PZ_SEVERAL_CATEGORIES = 17,   /* there are several categories of this type */
    PZ_BAD_CHAIN = 18,            /* the chain of categories of the device can't be read */
    PZ_IMAGE_OVER_LIMIT = 19,     /* the process image would have more than 1,486 bytes, or a slave more than 8 segments */
    PZ_MEMORY = 20,               /* malloc refused memory; it may come in place of any other answer */
    PZ_NO_STEP = 210,             /* no access was begun here, or it has ended */
    PZ_OTHER_LENGTH = 211,        /* the content isn't as long as that of the datagram that was sent */
    PZ_BAD_LINE = 212,            /* there is no slave, or there are more than 64, or their lengths don't make up the bytes */
    PZ_NO_SPACE = 213,            /* there is no room for the segments, or for the string */
    PZ_NO_SUCH_ITEM = 214         /* the content has no item of this number */
} pz_code;

/* What pz_next answers. From 300 on the numbers are of this library alone; the others are those that sii_station prints. */
typedef enum pz_progress {
    PZ_LOST = 41,                 /* the frame that issued the word was lost */
    PZ_STOPPED = 42,              /* the line has stopped */
    PZ_DEAD = 43,                 /* the slave is given up */
    PZ_SEND = 300,                /* a datagram is to be sent */
    PZ_OPENED = 301,              /* the slave is open */
    PZ_READ = 302,                /* two words were read */
    PZ_TAKEN = 303,               /* the slave took the command that writes a word */
    PZ_NOT_TAKEN = 304,           /* it didn't take it */
    PZ_WRITTEN = 305,             /* the word is written */
    PZ_AGAIN = 306,               /* the word isn't known to be written, and has to be issued again */
    PZ_NO_ACCESS = 310            /* no access was begun here */
} pz_progress;

/* What a code or a progress says, as a phrase without a full stop; of any other number that there is no such code. Never NULL. */
static inline const char *pz_text(unsigned code) {
    switch (code) {
    case PZ_OK: return "done";
    case PZ_ODD_LENGTH: return "the number of bytes is odd";
    case PZ_BAD_SIZE: return "the number of words is outside its limits";
    case PZ_RUNS_OUT: return "a category is cut off";
    case PZ_BAD_CATEGORY: return "the content of a category can't be read, or no category may have this type";
    case PZ_NO_ROOM: return "the categories don't fit into the device";
    case PZ_IMAGE_TOO_LONG: return "the image is longer than the device";
    case PZ_BAD_CHECK: return "the check byte is wrong";
    case PZ_NO_SUCH_CATEGORY: return "there is no such category";
    case PZ_SEVERAL_CATEGORIES: return "there are several categories of this type";
    case PZ_BAD_CHAIN: return "the chain of categories of the device can't be read";
    case PZ_IMAGE_OVER_LIMIT: return "the process image would have more than 1,486 bytes, or a slave more than 8 segments";
    case PZ_MEMORY: return "malloc refused memory; it may come in place of any other answer";
    case PZ_NO_STEP: return "no access was begun here, or it has ended";
    case PZ_OTHER_LENGTH: return "the content isn't as long as that of the datagram that was sent";
    case PZ_BAD_LINE: return "there is no slave, or there are more than 64, or their lengths don't make up the bytes";
    case PZ_NO_SPACE: return "there is no room for the segments, or for the string";
    case PZ_NO_SUCH_ITEM: return "the content has no item of this number";
    case PZ_LOST: return "the frame that issued the word was lost";
    case PZ_STOPPED: return "the line has stopped";
    case PZ_DEAD: return "the slave is given up";
    case PZ_SEND: return "a datagram is to be sent";
    case PZ_OPENED: return "the slave is open";
    case PZ_READ: return "two words were read";
    case PZ_TAKEN: return "the slave took the command that writes a word";
    case PZ_NOT_TAKEN: return "it didn't take it";
    case PZ_WRITTEN: return "the word is written";
    case PZ_AGAIN: return "the word isn't known to be written, and has to be issued again";
    case PZ_NO_ACCESS: return "no access was begun here";
    default: return "there is no such code";
    }
}

/* The head of an image (ETG.1000.6, words 0 to 15). */
typedef struct {
    uint32_t words;    /* number of words of the image, 64 to 4,096 */
    uint32_t alias;    /* configured station alias: word 4, 0 to 65,535 */
    uint32_t check;    /* check byte that stands there: the low byte of word 7 */
    uint32_t expected; /* check byte that words 0 to 6 give; equal to check in a good image */
    uint32_t vendor;   /* vendor id: words 8 and 9 */
    uint32_t product;  /* product code: words 10 and 11 */
    uint32_t revision; /* revision number: words 12 and 13 */
    uint32_t serial;   /* serial number: words 14 and 15 */
} pz_head;

/* Where a category stands (ETG.1000.6, slave information interface categories). */
typedef struct {
    uint32_t kind;  /* its type: 10 STRINGS, 40 FMMU, 41 SyncM, 50 TXPDO, 51 RXPDO, or any other below 0xFFFF */
    uint32_t at;    /* number of its type word, at least 64. Its content begins at byte 2 * (at + 2) of the image */
    uint32_t count; /* number of words of its content */
} pz_category_place;

/*
 * Reads the head of an image of `length` bytes. Nothing is checked but the length.
 *
 * Answers PZ_OK, PZ_ODD_LENGTH, PZ_BAD_SIZE (not 64 to 4,096 words) or PZ_MEMORY.
 */
pz_code pz_read_head(const uint8_t *image, size_t length, pz_head *head);

/*
 * Checks an image of `length` bytes: the check byte (ETG.1000.6, word 7), the chain of categories from word 0x40 on, and the contents of
 * its STRINGS, TXPDO and RXPDO categories (ETG.2010).
 *
 * Answers PZ_OK for a good image, or the first that applies, with a number in *detail, which is 0 otherwise:
 *   PZ_ODD_LENGTH
 *   PZ_BAD_SIZE       not 64 to 4,096 words
 *   PZ_BAD_CHECK      *detail: the right check byte
 *   PZ_RUNS_OUT       *detail: number of the word at which the header of the category stands that is cut off
 *   PZ_BAD_CATEGORY   *detail: type of the first category whose content can't be read
 * or PZ_MEMORY. *detail is always written.
 */
pz_code pz_validate(const uint8_t *image, size_t length, size_t *detail);

/*
 * Finds category number `number` of the chain, counted from 0 (ETG.1000.6, from word 0x40 on). The chain ends with the type 0xFFFF or
 * with the image. All of it has to be readable; contents aren't checked.
 *
 * Answers PZ_OK, PZ_ODD_LENGTH, PZ_BAD_SIZE (not 64 to 4,096 words), PZ_RUNS_OUT, PZ_NO_SUCH_CATEGORY (fewer categories) or PZ_MEMORY.
 */
pz_code pz_category(const uint8_t *image, size_t length, size_t number, pz_category_place *place);

/*
 * The items of a category's content: the bytes of an image from 2 * (place.at + 2) on, 2 * place.count of them, or any other `length` bytes
 * of such a form. Each call reads the content anew, and takes memory a few times its length.
 *
 * They answer PZ_OK, PZ_ODD_LENGTH, PZ_BAD_CATEGORY (the content can't be read; never of sync managers), PZ_NO_SUCH_ITEM (there are fewer) or
 * PZ_MEMORY.
 */

/* A sync manager, eight bytes of a category SyncM (type 41; ETG.1000.6). */
typedef struct {
    uint32_t start;   /* physical start address, 0 to 65,535 */
    uint32_t length;  /* length in bytes, 0 to 65,535 */
    uint32_t control; /* control register, 0 to 255, as the others below */
    uint32_t status;  /* status register */
    uint32_t enable;  /* enable flags */
    uint32_t kind;    /* type: 0 unused, 1 mailbox out, 2 mailbox in, 3 process data out, 4 process data in */
} pz_sync_manager_row;

/* Reads sync manager `number`, from 0. Fewer than eight bytes at the end are none. */
pz_code pz_sync_manager(const uint8_t *content, size_t length, size_t number, pz_sync_manager_row *manager);

/* A PDO of a category TXPDO or RXPDO (types 50 and 51; ETG.2010). */
typedef struct {
    size_t entries;           /* number of its entries, at most 255 */
    uint32_t index;           /* index of the PDO, 0 to 65,535 */
    uint32_t manager;         /* number of the sync manager that it is assigned to; 255: none */
    uint32_t synchronization; /* synchronization, 0 to 255 */
    uint32_t name;            /* number of its name among the strings, from 1; 0: none */
    uint32_t flags;           /* flags, 0 to 65,535 */
} pz_pdo_row;

/* Reads PDO `number`, from 0. */
pz_code pz_pdo(const uint8_t *content, size_t length, size_t number, pz_pdo_row *pdo);

/* An entry of a PDO. */
typedef struct {
    uint32_t index;     /* index of the object, 0 to 65,535 */
    uint32_t subindex;  /* subindex of the object, 0 to 255, as the three below */
    uint32_t name;      /* number of its name among the strings, from 1; 0: none */
    uint32_t data_type; /* code of the data type */
    uint32_t bits;      /* length in bits */
    uint32_t flags;     /* flags, 0 to 65,535 */
} pz_pdo_entry_row;

/* Reads entry `number` of PDO `pdo`, both from 0. */
pz_code pz_pdo_entry(const uint8_t *content, size_t length, size_t pdo, size_t number, pz_pdo_entry_row *entry);

/*
 * Reads string `number` of a category STRINGS (type 10; ETG.1000.6), from 1, as names give it. Its bytes are in the first *size places of
 * `text`, without a 0 after them; `room` is how many places there are. A string may hold any bytes.
 *
 * Answers PZ_NO_SUCH_ITEM for the number 0 too, and PZ_NO_SPACE where `room` is less than its length; 255 are always enough.
 */
pz_code pz_string(const uint8_t *content, size_t length, size_t number, uint8_t *text, size_t room, size_t *size);

/*
 * Sets the configured station alias of an image, word 4, and the check byte with it, the low byte of word 7 (ETG.1000.6). No other byte
 * changes. It takes no memory, looks at the first 15 bytes alone, and fits in a cycle.
 *
 * Answers PZ_OK, PZ_ODD_LENGTH, PZ_BAD_SIZE (not 64 to 4,096 words) or PZ_BAD_CHECK (the check byte was wrong before).
 */
pz_code pz_set_alias(uint8_t *image, size_t length, uint16_t alias);

/*
 * Replaces the content of the one category of type `kind` of a device (ETG.1000.6, slave information interface categories), or adds the
 * category last if there is none. With `content_length` 0 it is removed (`content` may be NULL then). The categories after it move up or
 * down, the word after the last one becomes 0xFFFF, and all words after that stay.
 *
 * `device` is the whole EEPROM: `length` bytes, 64 to 4,096 words, a multiple of 64. `content` is `content_length` bytes, and holds
 * words as the image does.
 *
 * Answers PZ_OK, or the first that applies:
 *   PZ_ODD_LENGTH          of the device
 *   PZ_BAD_SIZE            of the device
 *   PZ_ODD_LENGTH          of the content
 *   PZ_NO_SUCH_CATEGORY    there is none to be removed
 *   PZ_SEVERAL_CATEGORIES  of this type
 *   PZ_BAD_CATEGORY        the content isn't one of STRINGS, TXPDO or RXPDO as its type asks, or the type is 0xFFFF
 *   PZ_NO_ROOM
 *   PZ_BAD_CHAIN
 *   PZ_IMAGE_OVER_LIMIT    the device alone would have no process image
 * or PZ_MEMORY. The check byte isn't looked at, since words 0 to 7 stay.
 */
pz_code pz_edit_category(uint8_t *device, size_t length, uint16_t kind, const uint8_t *content, size_t content_length);

/*
 * Writes an image over the first words of a device (ETG.1000.6, slave information interface); the words after it stay.
 *
 * `device` is the whole EEPROM: `length` bytes, 64 to 4,096 words, a multiple of 64. `image` is `image_length` bytes, 64 to 4,096 words.
 *
 * Answers PZ_OK, or the first that applies:
 *   PZ_ODD_LENGTH        of the device
 *   PZ_BAD_SIZE          of the device
 *   PZ_ODD_LENGTH        of the image
 *   PZ_BAD_SIZE          of the image
 *   PZ_IMAGE_TOO_LONG
 *   PZ_BAD_CHECK         of the image
 *   PZ_BAD_CATEGORY      a category that the device would have then can't be read
 *   PZ_BAD_CHAIN         the chain that the device would have then can't be read
 *   PZ_IMAGE_OVER_LIMIT  the device alone would have no process image
 * or PZ_MEMORY.
 */
pz_code pz_edit_image(uint8_t *device, size_t length, const uint8_t *image, size_t image_length);

/* The process data of one sync manager in a process image (ETG.1000.6 and ETG.2010, SyncM, TXPDO and RXPDO categories). */
typedef struct {
    uint32_t slave;   /* number of the slave, 0 to 63 in the order of the line */
    uint32_t manager; /* number of its sync manager, 0 to 15 */
    uint32_t output;  /* 1: outputs, sent by the master; 0: inputs */
    uint32_t offset;  /* offset in the process image, in bytes. offset + size is at most 1,486 */
    uint32_t size;    /* size in bytes: bits / 8, rounded up */
    uint32_t bits;    /* length in bits, above 0 */
    uint32_t start;   /* physical start address of the sync manager, 0 to 65,535 */
    uint32_t control; /* control register of the sync manager, 0 to 255 */
} pz_segment;

/* The sizes of a process image of at most 1,486 bytes: the outputs of all slaves, then their inputs. */
typedef struct {
    size_t segments;  /* number of segments, at most 8 for each slave */
    uint32_t outputs; /* size of all outputs in bytes */
    uint32_t inputs;  /* size of all inputs in bytes */
    uint32_t counter; /* working counter of a cycle, 0 to 192: for each slave 2 if it has outputs, and 1 if it has inputs */
} pz_image_sizes;

/*
 * Places the process data of a line, as the categories of its slaves describe them. `devices` is the whole EEPROM of each slave, one
 * after the other in the order of the line, `length` bytes together; `lengths` is how many bytes each of the `slaves` slaves has.
 *
 * Answers PZ_OK: the segments are in the first places of `segments`, outputs first, in both by slave and then by sync manager; the other
 * places stay. Or the first that applies:
 *   PZ_BAD_LINE          1 to 64 slaves, whose lengths add up to `length`
 *   PZ_ODD_LENGTH        of the first slave that isn't a device
 *   PZ_BAD_SIZE          of that slave: not 64 to 4,096 words, a multiple of 64
 *   PZ_IMAGE_OVER_LIMIT
 *   PZ_NO_SPACE          `room` is less than the number of segments; 8 for each slave are always enough
 * or PZ_MEMORY. A slave whose categories can't be read has no process data.
 */
pz_code pz_place_line(const uint8_t *devices, size_t length, const size_t *lengths, size_t slaves, pz_segment *segments, size_t room,
                      pz_image_sizes *sizes);

/*
 * Word access in steps (ETG.1000.4, slave information interface). A call begins an access, pz_next says which datagram is to be sent, and
 * pz_take, pz_lose or pz_stop says what came back for it; so on until pz_next says how the access ended. These calls take no memory, don't
 * wait and take bounded time, so a cyclic task may make them. A pz_access belongs to one access of one slave, and to one call at a time.
 *
 * Leave a pause between datagrams that read control and status (ado 0x0502) of one slave, as a cycle of the master: 10,000 of them in a
 * row that don't see the slave idle end an access. `word` is any number, since an access doesn't know the size of the EEPROM: of a word
 * after its end a slave may say anything.
 */
typedef struct {
    uint32_t phase, more, tries; /* of the library */
    uint16_t first, second;      /* of the library; after PZ_READ the two words */
} pz_access;

/* A datagram that is to be sent to the slave, with a working counter of 0 (ETG.1000.4). */
typedef struct {
    uint8_t command;    /* 4, FPRD: read; or 5, FPWR: write. By the slave's place in the line it is 1, APRD, or 2, APWR */
    uint8_t length;     /* number of bytes of its content: 1, 2, 4, 6 or 8 */
    uint16_t ado;       /* address of the register: 0x0500, 0x0502 or 0x0508 */
    uint8_t content[8]; /* its content; the bytes after `length` are 0 */
} pz_datagram;

/*
 * Begins to open a slave: takes its EEPROM from the PDI, waits until it is idle and clears its errors. Ends with PZ_OPENED; or PZ_DEAD: a
 * datagram was sent three times and never counted, or 10,000 polls didn't see the slave idle. At most 10,009 datagrams are sent.
 */
void pz_open(pz_access *access);

/*
 * Begins to read word `word` and the next one of an open slave. Ends with PZ_READ, and the words are in `first` and `second`; or PZ_DEAD:
 * three tries failed, or 10,000 polls didn't see the slave idle. At most 30,006 datagrams are sent.
 */
void pz_read(pz_access *access, uint16_t word);

/*
 * Begins to issue a word to an open slave: sends the command that writes it, in one datagram. Ends with PZ_TAKEN, PZ_NOT_TAKEN or PZ_LOST.
 * After each of them the word may hold anything until pz_settle says PZ_WRITTEN.
 */
void pz_issue(pz_access *access, uint16_t word, uint16_t value);

/*
 * Begins to wait for a word that was issued. `taken` isn't 0 where that ended with PZ_TAKEN. Ends with PZ_WRITTEN: the word has its value;
 * PZ_AGAIN: issue it again; or PZ_DEAD: 10,000 polls didn't see the slave idle. At most 10,001 datagrams are sent.
 */
void pz_settle(pz_access *access, uint32_t taken);

/*
 * Answers PZ_SEND and writes the datagram that is to be sent. Where the access has ended it answers how, PZ_STOPPED after pz_stop, and
 * *datagram stays. Answers PZ_NO_ACCESS where none was begun (all bytes 0, or others that the library didn't write).
 */
pz_progress pz_next(const pz_access *access, pz_datagram *datagram);

/*
 * Takes in the datagram that came back: its working counter and its content. Answers PZ_OK, PZ_NO_STEP (nothing was to be sent) or
 * PZ_OTHER_LENGTH (`length` isn't that of the datagram). With another answer than PZ_OK nothing is changed.
 */
pz_code pz_take(pz_access *access, uint16_t counter, const uint8_t *content, size_t length);

/* Takes in that the frame was lost: the slave may have taken the datagram or not. Answers PZ_OK, or PZ_NO_STEP, and nothing is changed. */
pz_code pz_lose(pz_access *access);

/* Takes in that the line has stopped for good. Answers PZ_OK, or PZ_NO_STEP, and nothing is changed. */
pz_code pz_stop(pz_access *access);

#ifdef __cplusplus
}
#endif

#endif
