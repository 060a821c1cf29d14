"""The C++ of a class table for LLVM's Scudo: the one text of it, which scripts/scudo_classes prints and the page fills in. `scudo_classes
--help` says all."""

import textwrap

from mte_scripts import certificate_texts, text_files
from mte_scripts.entry_point import Refusal, say
from mte_scripts.formats import LARGEST_CLASS
from mte_scripts.tables import table_mark

from mte_scripts.words import Words

HELP = r"""Print the class table of a sheet or a fit as a size-class map of LLVM's Scudo: a header that takes the place of its default map.

Usage: scudo_classes [--config] [--mark VERSION] [--] [SHEET]    (a fit is taken as a sheet is)
                                    (standard input for `-`, or where there is no SHEET; a line `classes C1 C2 ..` alone will do)

  --config   print LLVM 19's whole header custom_scudo_config.h, for which no line of Scudo is changed. Put it on the path of
             headers, and compile Scudo with -DSCUDO_USE_CUSTOM_CONFIG
  --mark VERSION put VERSION and the digest of the table into what is built with it, from which `fleet_rollout running`
             reads which table a process has

Without --config, and with SCUDO as the folder compiler-rt/lib/scudo/standalone of LLVM's sources:

  scudo_classes < app.sheet > SCUDO/tuned_map.inc
  sed -i 's/^typedef FixedSizeClassMap<DefaultSizeClassConfig> DefaultSizeClassMap;/#include "tuned_map.inc"/' \
    SCUDO/size_class_map.h

The map finds the class of each size exactly, by its granules of 16 bytes. After the table's classes below 1024 it has Scudo's own
from 16 KiB, which is class 1024, to 128 KiB, and beside each power of two a class 16 bytes larger, which serves that with its
header. So the map serves every size that Scudo's default map serves. A table without class 1024 is said on standard error:
larger sizes get Scudo's own classes.
The C++ asserts that its classes ascend and are in range, so that a table that was changed into a wrong one does not compile.

Exit status:
  0  the C++ is printed
  2  the words are refused, the file can't be read, its first line is no class line, or the table has no class below 1024
  3  standard output can't be written

Examples:
  scudo_classes app.sheet > tuned_map.inc
  scudo_classes --config app.sheet > custom_scudo_config.h
"""

GRANULE = 16  # bytes
NO_CLASS = f"the table has no class below {LARGEST_CLASS}: was the profile, or the history, empty?"
# of a table without class 1024: {size} is the largest size that it serves
NEXT_OWN = "No class is tuned above {size} bytes: larger sizes get Scudo's own classes, from 16,384 bytes on."
# The classes above 16 KiB in granules, by steps of a quarter of an octave: Scudo's own, whose blocks begin at pages, so that pages at the end
# of one that are not written are not resident.
SCUDO_LARGER = [start // 4 * (4 + step) for start in (1024, 2048, 4096) for step in (1, 2, 3, 4)]
# Those of the map: from 16 KiB on, and beside each power of two what holds that with its header, which fills no page of Scudo's next class.
LARGER = sorted([LARGEST_CLASS, *SCUDO_LARGER, *(2**n + 1 for n in range(10, 14))])


def class_lines(classes: list[int]) -> str:
    """Classes as lines of the header."""
    return textwrap.fill(" ".join(f"{c}," for c in classes), 75, initial_indent=" " * 6, subsequent_indent=" " * 6)


MAP = """\
// A table of COUNT tuned classes, in granules of 16 bytes, and Scudo's own from 16 to 128 KiB, with one more for each
// power of two and its header.
NOTESstruct TunedClasses : DefaultSizeClassConfig {
  static constexpr u16 Granules[] = {
GRANULES
LARGER};
};

// A table that was changed into a wrong one does not compile.
template <typename C> constexpr bool granulesAscend() {
  for (uptr I = 1; I < sizeof(C::Granules) / sizeof(C::Granules[0]); ++I)
    if (C::Granules[I - 1] >= C::Granules[I])
      return false;
  return true;
}
template <typename C> constexpr uptr lastGranules() {
  return C::Granules[sizeof(C::Granules) / sizeof(C::Granules[0]) - 1];
}
static_assert(granulesAscend<TunedClasses>(), "the classes do not ascend");
static_assert(TunedClasses::Granules[0] >= 2, "a class has no room for a header of 16 bytes and a granule");
static_assert(TunedClasses::Granules[0] < 1024, "there is no tuned class");
static_assert(lastGranules<TunedClasses>() >= 1024, "the table does not serve the largest requests");
static_assert(lastGranules<TunedClasses>() <= 8193, "a class is above Scudo's largest");
static_assert(sizeof(TunedClasses::Granules) <= 2 * (32 + 17), "there are more than 32 tuned classes and 17 from 16 KiB on");

// The class of a size is looked up by its granules: the least that holds it.
template <typename C> struct GranuleClassMap : SizeClassMapBase<C> {
  static const uptr LargestClassId = sizeof(C::Granules) / sizeof(C::Granules[0]);
  static const uptr NumClasses = LargestClassId + 1;
  static const uptr BatchClassId = 0;
  static const uptr MaxSize = 16UL * C::Granules[LargestClassId - 1];
  static const decltype(C::MaxNumCachedHint) MaxNumCachedHint = C::MaxNumCachedHint;

  struct Table {
    u8 Id[MaxSize / 16 + 1] = {};
    constexpr Table() {
      for (uptr G = 0, I = 0; G <= MaxSize / 16; ++G) {
        if (G > C::Granules[I])
          ++I;
        Id[G] = u8(I + 1);
      }
    }
  };
  static constexpr Table T = {};

  static uptr getClassIdBySize(uptr Size) { return T.Id[(Size + 15) / 16]; }
  static uptr getSizeByClassId(uptr Id) { return 16UL * C::Granules[Id - 1]; }
  static u8 getSizeLSBByClassId(uptr Id) {
    return u8(getLeastSignificantSetBitIndex(getSizeByClassId(Id)));
  }
  static constexpr bool usesCompressedLSBFormat() { return false; }
};
""".replace("LARGER", class_lines(LARGER).removesuffix(","))

AS_DEFAULT = """\
typedef GranuleClassMap<TunedClasses> DefaultSizeClassMap;
"""

# The options beside the map are those of DefaultConfig in LLVM 19's allocator_config.h, on a machine of 64 bits.
CONFIG = """\
// custom_scudo_config.h: Scudo's own configuration, but for the table of size classes. For LLVM 19, with -DSCUDO_USE_CUSTOM_CONFIG.
#ifndef CUSTOM_SCUDO_CONFIG_H_
#define CUSTOM_SCUDO_CONFIG_H_

#if !SCUDO_CAN_USE_PRIMARY64
#error "the table counts a header of 16 bytes, as Scudo has it on machines of 64 bits"
#endif

namespace scudo {

MAP
struct TunedConfig {
  static const bool MaySupportMemoryTagging = true;
  template <class A> using TSDRegistryT = TSDRegistryExT<A>;

  struct Primary {
    using SizeClassMap = GranuleClassMap<TunedClasses>;
    static const uptr RegionSizeLog = 32U;
    static const uptr GroupSizeLog = 21U;
    typedef uptr CompactPtrT;
    static const uptr CompactPtrScale = 0;
    static const bool EnableRandomOffset = true;
    static const uptr MapSizeIncrement = 1UL << 18;
    static const s32 MinReleaseToOsIntervalMs = INT32_MIN;
    static const s32 MaxReleaseToOsIntervalMs = INT32_MAX;
  };
  template <typename Config> using PrimaryT = SizeClassAllocator64<Config>;

  struct Secondary {
    struct Cache {
      static const u32 EntriesArraySize = 32U;
      static const u32 QuarantineSize = 0U;
      static const u32 DefaultMaxEntriesCount = 32U;
      static const uptr DefaultMaxEntrySize = 1UL << 19;
      static const s32 MinReleaseToOsIntervalMs = INT32_MIN;
      static const s32 MaxReleaseToOsIntervalMs = INT32_MAX;
    };
    template <typename Config> using CacheT = MapAllocatorCache<Config>;
  };
  template <typename Config> using SecondaryT = MapAllocator<Config>;
};

typedef TunedConfig Config;
typedef TunedConfig DefaultConfig;

} // namespace scudo

#endif // CUSTOM_SCUDO_CONFIG_H_
"""


def warnings(classes: list[int]) -> list[str]:
    """What the user of this table's map has to know."""
    return [] if classes[-1:] == [LARGEST_CLASS] or not classes else [NEXT_OWN.format(size=f"{GRANULE * classes[-1] - GRANULE:,}")]


def in_map(classes: list[int]) -> list[int]:
    """The classes that serve requests up to LARGEST_SIZE bytes in the map of a table: its own below 1024, and that."""
    return [c for c in classes if c < LARGEST_CLASS] + [LARGEST_CLASS]


def fill_map(classes: list[int]) -> str:
    """The map of a table that ascends from 2 to 1024."""
    tuned = in_map(classes)[:-1]
    if not tuned:
        raise Refusal(2, NO_CLASS)
    notes = "".join(f"// {note}\n" for note in warnings(classes))
    return MAP.replace("COUNT", str(len(tuned))).replace("NOTES", notes).replace("GRANULES", class_lines(tuned))


def as_default(classes: list[int], mark: str = "") -> str:
    """The header that takes the place of Scudo's default map."""
    return fill_map(classes) + AS_DEFAULT + mark


def config(classes: list[int], mark: str = "") -> str:
    """LLVM 19's whole header custom_scudo_config.h."""
    return CONFIG.replace("MAP", fill_map(classes) + mark, 1)


def for_page() -> dict[str, str]:
    """The words from which the page makes the same header."""
    return {"text": MAP + AS_DEFAULT, "nextOwn": NEXT_OWN, "noClass": NO_CLASS}


def print_map(words: "list[str]") -> int:
    options = Words(HELP, "files", mark=table_mark.version).take(words)
    if len(options.files) > 1:
        raise Refusal(2, f"there is one sheet, so no argument {options.files[1]}")
    if not options.files:
        text_files.say_reading("scudo_classes", ", a sheet")
    classes = certificate_texts.class_line(options.files[0] if options.files else "-")
    mark = table_mark.cpp_of(options.mark, classes) if options.mark else ""
    made = config(classes, mark) if options.config else as_default(classes, mark)
    for warning in warnings(classes):
        say("scudo_classes", warning)
    return text_files.write(made)
