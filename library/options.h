/* The options for the proved functions. Written by scripts/tests/formats from scripts/mte_scripts/formats.py. */
typedef struct narrow_options {
    uint32_t granules;
    uint32_t quarantine;
    uint16_t seed;
    uint8_t limit;
    uint8_t step;
    uint8_t largest_class;
    uint8_t claim;
    uint8_t first_lines;
} narrow_options;

/* A number that is too large for its place becomes one that is out of the option's range too. */
static inline narrow_options narrowed(const mte_tool_options *wide) {
    narrow_options narrow;
    narrow.claim = 0;
    narrow.first_lines = 0;
    narrow.granules = wide->granules > UINT32_MAX ? 0 : (uint32_t)wide->granules;
    narrow.quarantine = wide->quarantine > UINT32_MAX ? UINT32_MAX : (uint32_t)wide->quarantine;
    narrow.seed = wide->seed > UINT16_MAX ? 0 : (uint16_t)wide->seed;
    narrow.limit = wide->limit > UINT8_MAX ? 0 : (uint8_t)wide->limit;
    narrow.step = wide->step > UINT8_MAX ? 0 : (uint8_t)wide->step;
    narrow.largest_class = wide->largest_class > UINT8_MAX ? UINT8_MAX : (uint8_t)wide->largest_class;
    return narrow;
}
