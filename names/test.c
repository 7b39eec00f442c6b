/* Prints every name that the C header gives, as names/make --list does from the tables; C99 and C++ alike. */
#include <stdio.h>

#include "pica_names.h"

/* Well past the last code, register, field and refusal. */
#define CODES_ASKED 70000
#define REGISTERS_ASKED 70000
#define FIELDS_ASKED 70000
#define REFUSALS_ASKED 40

static const char *or_dash(const char *name) { return name ? name : "-"; }

static void print_fields(void) {
    uint32_t field, value;
    for (field = 0; field < FIELDS_ASKED; field++) {
        const char *name = pica_field_name(field);
        if (!name) continue;
        printf("field %u: %s, register %03X\n", (unsigned)field, name, (unsigned)pica_field_register(field));
        for (value = 0; value < CODES_ASKED; value++) {
            name = pica_code_name(field, value);
            if (name) printf("    %u: %s\n", (unsigned)value, name);
        }
    }
}

static void print_registers(void) {
    uint32_t id;
    for (id = 0; id < REGISTERS_ASKED; id++) {
        const char *name = pica_register_name(id);
        if (name) printf("register %03X: %s\n", (unsigned)id, name);
    }
}

static void print_refusals(void) {
    uint32_t number;
    for (number = 0; number < REFUSALS_ASKED; number++) {
        const char *name = or_dash(pica_refusal_name(number));
        const char *text = or_dash(pica_refusal_text(number));
        printf("refusal %u: %s: %s: %s\n", (unsigned)number, name, text, or_dash(pica_refusal_advice(number)));
    }
}

/* The greatest numbers have no name either. */
static int greatest_are_answered(void) {
    const uint32_t most = UINT32_MAX;
    return !pica_field_name(most) && !pica_register_name(most) && !pica_code_name(most, 0) && !pica_code_name(0, most) &&
           !pica_refusal_name(most) && !pica_refusal_text(most) && !pica_refusal_advice(most) &&
           pica_field_register(most) == UINT32_MAX && pica_field_register(PICA_FIELD_COUNT) == UINT32_MAX;
}

int main(void) {
    print_fields();
    print_registers();
    print_refusals();
    return greatest_are_answered() && fflush(stdout) == 0 && !ferror(stdout) ? 0 : 1;
}
