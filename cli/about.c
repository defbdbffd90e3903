/* What this is: the version, the library's calls, and the limits. tests/install.sh compares the calls with the header's. */
#include "cli.h"

static const char *const calls[] = {
    "check_utf8",
    "escape",
    "c14n_attribute",
    "c14n_text",
    "parse_number",
    "normalize_eols",
    "check_table",
    "read_declarations",
    "unescape",
    "normalize_attribute_value",
    "least_depth",
    "rehearse",
    "canonical_form",
    "normalize_attribute_value_strict",
    "canonical_form_strict",
    "normalize_nmtokens",
    "next_nmtoken",
    "trim_xml_start",
    "trim_xml_end",
    "trim_xml_spaces",
    "cdata_next",
    "register_add",
    "register_withdraw",
    "register_count",
};

void put_about(void)
{
    puts("govlezna " GOVLEZNA_VERSION "\n"
         "\n"
         "Text of XML job files: the answers of a part of the Rust crate quick-xml 0.42.0, and requests of its customers'. Every\n"
         "function of the library is proved to meet its contract.\n"
         "\n"
         "Calls:");
    for (size_t i = 0; i < sizeof calls / sizeof calls[0]; i++)
        printf("  govlezna_%s\n", calls[i]);
    puts("\n"
         "Limits:\n"
         "  a text, or a form of a register, of 16,777,216 bytes\n"
         "  an entity table of 49,154 bytes of list and 1,048,576 of pool; a name of 255 bytes and a text of 65,535\n"
         "  entities nested 128 deep; 1,000,000 of them opened\n"
         "  65,536 spans of a text\n"
         "  a count of 4,294,967,295 in a register\n"
         "  96 KiB of stack for a call, and no memory beyond");
}
