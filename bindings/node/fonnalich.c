/* The addon of index.js: handles of the library as objects of Node-API.

   `new Handle()` begins one, `act(word, number, subject, text)` does what a word says, `one(word, second, domain, path,
   name)` with one cookie, `receive(started, second, url, page, lines)` takes the lines of an answer, `share(other)`
   keeps the list that another keeps, and `close()` ends it. The texts are views of bytes; the answer is a Buffer, or
   the number of a refusal. Where Node collects a handle, or ends a thread, it ends it too; `living()` says how many of
   this thread haven't ended. Each worker thread has an instance of its own, and two share nothing that is written
   to. */
#define NAPI_VERSION 8
#include "fonnalich.h"
#include <node_api.h>
#include <stdlib.h>

#define ROOM 4096
#define TYPED(call) \
    do { \
        if ((call) != napi_ok) { \
            napi_throw_type_error(env, NULL, "fonnalich: " #call); \
            return NULL; \
        } \
    } while (0)

/* By how much a list outgrows its text: so much memory is told to Node, which collects handles by it. */
#define GROWTH 6

/* What an instance knows; it goes with the last of its handles, where Node lets go of that later. */
typedef struct {
    uint32_t living, kept;
    bool has_ended;
} instance;

typedef struct {
    fonnalich at;
    instance *owner;
    int64_t told;
    bool has_ended;
} handle;

static const napi_type_tag HANDLE = {0x666f6e6e616c6963, 0x682068616e646c65};

static void tell(napi_env env, handle *its, int64_t bytes) {
    int64_t all;
    napi_adjust_external_memory(env, bytes - its->told, &all);
    its->told = bytes;
}

static void end(napi_env env, handle *its) {
    if (its->has_ended)
        return;
    fonnalich_free(&its->at);
    its->has_ended = true;
    its->owner->living--;
    tell(env, its, 0);
}

static void finalize(napi_env env, void *at, void *hint) {
    handle *its = at;
    instance *own = its->owner;
    (void)hint;
    end(env, its);
    free(its);
    own->kept--;
    if (own->has_ended && own->kept == 0)
        free(own);
}

static void finalize_instance(napi_env env, void *at, void *hint) {
    instance *own = at;
    (void)env, (void)hint;
    own->has_ended = true;
    if (own->kept == 0)
        free(own);
}

static napi_value begin(napi_env env, napi_callback_info info) {
    napi_value self, made = NULL;
    instance *own;
    TYPED(napi_get_cb_info(env, info, NULL, NULL, &self, NULL));
    TYPED(napi_get_new_target(env, info, &made));
    TYPED(napi_get_instance_data(env, (void **)&own));
    handle *its = made ? malloc(sizeof *its) : NULL;
    if (!made) {
        napi_throw_type_error(env, NULL, "fonnalich: a Handle is made by `new`");
        return NULL;
    }
    if (!its) {
        napi_throw_error(env, "Memory", "memory was refused");
        return NULL;
    }
    if (fonnalich_begin(&its->at) < 0) {
        free(its);
        napi_throw_error(env, "Handle", "the library can't begin a handle here");
        return NULL;
    }
    its->owner = own;
    its->told = 0;
    its->has_ended = false;
    own->living++;
    own->kept++;
    if (napi_wrap(env, self, its, finalize, NULL, NULL) != napi_ok) {
        finalize(env, its, NULL);
        napi_throw_type_error(env, NULL, "fonnalich: the object can't be a handle");
        return NULL;
    }
    TYPED(napi_type_tag_object(env, self, &HANDLE));
    return self;
}

/* The handle that an object has, or NULL, with an exception, where it has none or one that ended. */
static handle *of(napi_env env, napi_value self) {
    bool is_handle = false;
    handle *its = NULL;
    if (napi_check_object_type_tag(env, self, &HANDLE, &is_handle) != napi_ok || !is_handle ||
        napi_unwrap(env, self, (void **)&its) != napi_ok || its->has_ended) {
        napi_throw_type_error(env, NULL, "fonnalich: this is closed, or no jar or list: begin another by `new`");
        return NULL;
    }
    return its;
}

/* The bytes of a view, which for none is "". */
static napi_status bytes(napi_env env, napi_value view, const char **text, size_t *length) {
    void *at = NULL;
    napi_status status = napi_get_buffer_info(env, view, &at, length);
    *text = at && *length ? at : "";
    return status;
}

/* The answer that the handle kept, since the room was too small. */
static napi_value kept(napi_env env, handle *its, size_t length) {
    napi_value answer;
    void *out;
    if (napi_create_buffer(env, length, &out, &answer) != napi_ok) {
        napi_throw_error(env, "Memory", "memory was refused");
        return NULL;
    }
    fonnalich_answer(&its->at, out, length);
    return answer;
}

/* The answer of a call that was this long, or the number of its refusal. */
static napi_value answered(napi_env env, handle *its, ptrdiff_t length, const char *room) {
    napi_value answer;
    if (length > ROOM)
        return kept(env, its, length);
    if (length < 0)
        TYPED(napi_create_int64(env, length, &answer));
    else
        TYPED(napi_create_buffer_copy(env, length, room, NULL, &answer));
    return answer;
}

static napi_value act(napi_env env, napi_callback_info info) {
    napi_value words[4], self;
    size_t count = 4, subject_length, text_length;
    const char *subject, *text;
    char room[ROOM];
    uint32_t word;
    int64_t number;
    TYPED(napi_get_cb_info(env, info, &count, words, &self, NULL));
    TYPED(napi_get_value_uint32(env, words[0], &word));
    TYPED(napi_get_value_int64(env, words[1], &number));
    TYPED(bytes(env, words[2], &subject, &subject_length));
    TYPED(bytes(env, words[3], &text, &text_length));
    handle *its = of(env, self);
    if (!its)
        return NULL;
    ptrdiff_t length = fonnalich_act(&its->at, word, number, subject, subject_length, text, text_length, room, ROOM);
    if (length >= 0 && word == FONNALICH_DO_KEEP_LIST)
        tell(env, its, GROWTH * (int64_t)text_length);
    return answered(env, its, length, room);
}

/* A call of the library with a number, a second and three texts. */
typedef ptrdiff_t of_three(fonnalich *at, uint32_t number, int64_t second, const char *first, size_t first_length,
                           const char *next, size_t next_length, const char *last, size_t last_length, char *out,
                           size_t out_length);

static napi_value with_three(napi_env env, napi_callback_info info, of_three *call) {
    napi_value words[5], self;
    size_t count = 5, length[3];
    const char *text[3];
    char room[ROOM];
    uint32_t number;
    int64_t second;
    TYPED(napi_get_cb_info(env, info, &count, words, &self, NULL));
    TYPED(napi_get_value_uint32(env, words[0], &number));
    TYPED(napi_get_value_int64(env, words[1], &second));
    for (int i = 0; i < 3; i++)
        TYPED(bytes(env, words[2 + i], &text[i], &length[i]));
    handle *its = of(env, self);
    if (!its)
        return NULL;
    return answered(env, its, call(&its->at, number, second, text[0], length[0], text[1], length[1], text[2], length[2],
                                   room, ROOM), room);
}

static napi_value one(napi_env env, napi_callback_info info) {
    return with_three(env, info, fonnalich_one);
}

static napi_value receive(napi_env env, napi_callback_info info) {
    return with_three(env, info, fonnalich_receive_for);
}

static napi_value share(napi_env env, napi_callback_info info) {
    napi_value words[1], self;
    size_t count = 1;
    TYPED(napi_get_cb_info(env, info, &count, words, &self, NULL));
    handle *its = of(env, self), *other = its ? of(env, words[0]) : NULL;
    if (!other)
        return NULL;
    if (its == other) {
        napi_throw_type_error(env, NULL, "fonnalich: a handle shares no list with itself");
        return NULL;
    }
    return answered(env, its, fonnalich_share(&its->at, &other->at), "");
}

static napi_value finish(napi_env env, napi_callback_info info) {
    napi_value self;
    TYPED(napi_get_cb_info(env, info, NULL, NULL, &self, NULL));
    handle *its = of(env, self);
    if (its)
        end(env, its);
    return NULL;
}

static napi_value living(napi_env env, napi_callback_info info) {
    napi_value answer;
    instance *own;
    (void)info;
    TYPED(napi_get_instance_data(env, (void **)&own));
    TYPED(napi_create_uint32(env, own->living, &answer));
    return answer;
}

static napi_value processor(napi_env env, napi_callback_info info) {
    napi_value answer;
    (void)info;
    TYPED(napi_get_boolean(env, fonnalich_processor() == 0, &answer));
    return answer;
}

static napi_value version(napi_env env, napi_callback_info info) {
    char room[64];
    napi_value answer;
    (void)info;
    TYPED(napi_create_string_utf8(env, room, fonnalich_version(room, sizeof room), &answer));
    return answer;
}

NAPI_MODULE_INIT() {
    napi_property_descriptor methods[] = {
        {.utf8name = "act", .method = act},
        {.utf8name = "one", .method = one},
        {.utf8name = "receive", .method = receive},
        {.utf8name = "share", .method = share},
        {.utf8name = "close", .method = finish},
    };
    napi_value made;
    instance *own = calloc(1, sizeof *own);
    if (!own) {
        napi_throw_error(env, "Memory", "memory was refused");
        return NULL;
    }
    TYPED(napi_set_instance_data(env, own, finalize_instance, NULL));
    TYPED(napi_define_class(env, "Handle", NAPI_AUTO_LENGTH, begin, NULL, 5, methods, &made));
    TYPED(napi_set_named_property(env, exports, "Handle", made));
    napi_property_descriptor calls[] = {
        {.utf8name = "living", .method = living},
        {.utf8name = "processor", .method = processor},
        {.utf8name = "version", .method = version},
    };
    TYPED(napi_define_properties(env, exports, 3, calls));
    return exports;
}
