"""The results of calls, by their numbers. Written by tools/make_python of pe.h."""
import enum


class Kind(enum.IntEnum):
    """Why something is refused, by its number in pe.h: numbers never change, and new ones may come."""

    MEMORY = 1
    """out of memory; never returned"""
    SHORT = 2
    """truncated"""
    BAD_MAGIC = 3
    """invalid magic number"""
    HEADER_POINTER = 4
    """PE header offset lies inside the DOS header; strict mode only"""
    IMPORT_NAME = 5
    """import name not NUL-terminated or not UTF-8"""
    STRING_TABLE = 6
    """string table truncated, or string not NUL-terminated or not UTF-8"""
    CERTIFICATE_REVISION = 7
    """invalid certificate revision"""
    CERTIFICATE_TYPE = 8
    """invalid certificate type"""
    CERTIFICATE_SIZE = 9
    """certificate truncated"""
    CERTIFICATE_TABLE = 10
    """certificate table ends past the end of the file"""
    UNMAPPED = 11
    """RVA maps to no file offset"""
    DEBUG_BOUNDS = 12
    """debug directory ends past the end of the file; strict mode only"""
    DEBUG_SIZE = 13
    """debug record too small; strict mode only"""
    DEBUG_DATA = 14
    """debug record truncated"""
    POGO_SIZE = 15
    """POGO record has no entries"""
    POGO_NAME = 16
    """POGO entry truncated"""
    EXCEPTION_SIZE = 17
    """exception directory size is not a multiple of the entry size"""
    EXCEPTION_OFFSET = 18
    """exception directory is not aligned to 4 bytes"""
    EXCEPTION_BOUNDS = 19
    """exception directory ends past the end of the file"""
    FUNCTION_INDEX = 20
    """function index out of range"""
    FUNCTION_LINK = 21
    """link leads to no function entry"""
    FUNCTION_CYCLE = 22
    """loop in unwind links or chained records"""
    UNWIND_VERSION = 23
    """unknown unwind record version"""
    UNWIND_CODE = 24
    """invalid unwind code"""
    ARM64_VERSION = 25
    """unknown ARM64 unwind record version"""
    ARM64_STREAM = 26
    """invalid ARM64 unwind code stream"""
    ARM64_CUT = 27
    """ARM64 unwind code truncated"""
    RESOURCE_BOUNDS = 28
    """resource data ends past the bytes that hold it"""
    RESOURCE_CYCLE = 29
    """loop in the resource tree"""
    RESOURCE_STRING = 30
    """version string value missing, or its length above 32,767"""
    TE_SIZE = 31
    """stripped size smaller than the TE header"""
    NO_OPTIONAL_HEADER = 32
    """image has no optional header"""
    WRITE_ALIGNMENT = 33
    """alignment cannot be written"""
    WRITE_SYMBOLS = 34
    """images with COFF symbols cannot be written"""
    WRITE_OVERLAP = 35
    """sections overlap in the file"""
    WRITE_SECTION = 36
    """section data is not in the source bytes"""
    WRITE_FIT = 37
    """write does not fit the buffer"""
    IMPORTS_LIMIT = 38
    """image has more imports than the limit; never returned"""
    NOTHING = 100
    """there is nothing of the kind, or the walk is over"""
    ROOM = 101
    """the array is too small"""
    MISSING = 102
    """eight bytes of memory are missing, at the frame's address"""
    BAD_ADDRESS = 103
    """address and the offset of an unwind code do not fit 64 bits"""
    BAD_OPERATION = 104
    """unwind operation cannot be undone"""
    NOT_RISING = 105
    """stack pointer of the caller is not above that of the function"""
    LONG_CHAIN = 106
    """more than 32 unwind records are chained"""
    OUT_OF_ORDER = 107
    """pieces of memory overlap or do not ascend"""
    SIGN_NO_DIRECTORY = 201
    """image has no certificate directory"""
    SIGN_TABLE_NOT_LAST = 202
    """certificate table ends before the end of the file"""
    SIGN_HEADERS = 203
    """headers end after the start of the certificates or the end of the file"""
    SIGN_SECTION = 204
    """section data ends after the start of the certificates or the end of the file"""
    SIGN_TABLE_OFFSET = 205
    """certificate table is not aligned to 8 bytes"""
    SIGN_TOO_LARGE = 206
    """image with the certificate has 2^32 bytes or more"""
    DIRECTORY_BLOCK_SIZE = 301
    """base relocation block size below 8 or odd"""
    DIRECTORY_BLOCK_TRUNCATED = 302
    """base relocation block truncated"""
    DIRECTORY_NO_ARGUMENT = 303
    """base relocation has no argument"""
    DIRECTORY_VA_BELOW_BASE = 304
    """virtual address below the image base"""
    DIRECTORY_CLR_HEADER_SIZE = 305
    """CLR header smaller than 72 bytes"""
    DIRECTORY_STREAM_NAME = 306
    """name of a metadata stream not NUL-terminated"""
    DIRECTORY_DELAY_IMPORT_NAME = 307
    """name of a delay import not NUL-terminated or not UTF-8"""
    DIRECTORY_BOUND_IMPORT_NAME = 308
    """name of a bound import not NUL-terminated or not UTF-8"""
    DIRECTORY_RELOCATION_KIND = 309
    """base relocation of a type that is not applied"""
    DIRECTORY_RELOCATION_OUTSIDE = 310
    """base relocation outside of the image"""
    TREE_NOT_DIRECTORY = 401
    """resource data entry above the level of languages"""
    TREE_NOT_DATA = 402
    """resource directory below the level of languages"""
    TREE_NO_ENTRIES = 403
    """resource directory of names or languages has no entries"""
    EDIT_TOO_MANY = 451
    """more than 65,535 resources"""
    EDIT_NAME = 452
    """type or name of a resource has an odd number of bytes or is too long"""
    EDIT_ORDER = 453
    """resource is not sorted after the one before it"""
    EDIT_TABLES_TOO_LARGE = 454
    """directories and names of the resources have 2^31 bytes or more"""
    EDIT_TOO_LARGE = 455
    """resource section ends at the RVA 2^32 or after it"""
    EDIT_NO_DIRECTORY = 456
    """image has no resource directory"""
    EDIT_SIGNED = 457
    """image has certificates, which have to be detached first"""
    EDIT_HEADERS = 458
    """data directories end after the section table starts"""
    EDIT_ALIGNMENT = 459
    """alignment of sections or of their data is too small or no power of two"""
    EDIT_NO_SECTION = 460
    """no section starts at the RVA of the resource directory"""
    EDIT_SECTION = 461
    """data of the sections are in the headers, truncated or not aligned"""
    EDIT_SHARED_SECTION = 462
    """the entry point, a directory or a base relocation leads where the resources go"""
    EDIT_SYMBOLS = 463
    """COFF symbols lie in the data of the resource section or at its end"""
    EDIT_OVERLAP = 464
    """section shares bytes or pages with the resource section or headers, or is after it"""
    EDIT_NO_ROOM = 465
    """resources do not fit into the data of their section or into the image in memory"""
    EDIT_RECORD = 466
    """resource has a range outside of the array, or an id or language above 65,535"""
    EDIT_NAMES = 467
    """names of the resources have more than 16 MiB"""
    BLOCK_KEY = 468
    """key of a version block has an odd number of bytes, or a code unit of zero"""
    BLOCK_TEXT = 469
    """text of a version block has an odd number of bytes"""
    BLOCK_TOO_LONG = 470
    """version block has more than 65,535 bytes"""
    EDIT_NO_HEADER_ROOM = 471
    """headers have no room for another section header"""
    EDIT_IMAGE_TOO_LARGE = 472
    """image with the resources ends after 4 GB"""
    EDIT_DEBUG_DATA = 473
    """debug entries or their data lie where the resources go"""
    EDIT_CONTENTS = 474
    """contents of the resources, which share bytes, are too large for their array"""
    SIGNATURE_TRUNCATED = 501
    """element of a signature truncated before its content"""
    SIGNATURE_TAG_NUMBER = 502
    """element of a signature has a tag number above 30"""
    SIGNATURE_INDEFINITE_LENGTH = 503
    """element of a signature has an indefinite length"""
    SIGNATURE_LENGTH_OCTETS = 504
    """length of an element of a signature has more than 4 octets after its first"""
    SIGNATURE_LENGTH_FORM = 505
    """length of an element of a signature is not in its shortest form"""
    SIGNATURE_PAST_PARENT = 506
    """element of a signature ends after its parent"""
    SIGNATURE_MISSING = 507
    """element of a signature is missing"""
    SIGNATURE_TAG = 508
    """element of a signature has another tag"""
    SIGNATURE_TRAILING = 509
    """bytes follow the last field of an element of a signature"""
    SIGNATURE_CONTENT_TYPE = 510
    """content of a signature has another type"""
    SIGNATURE_BAD_TIME = 511
    """time of a signature is not in the form of RFC 5280"""
    SIGNATURE_END_OF_CONTENTS = 512
    """element of a signature is an end of contents, which DER does not have"""
    SIGNATURE_EMPTY_CONTENT = 513
    """element of a signature has no content, which its type does not allow"""
    DUMP_SIGNATURE = 551
    """invalid signature of a minidump"""
    DUMP_VERSION = 552
    """invalid version of a minidump"""
    DUMP_DIRECTORY = 553
    """directory of the streams ends past the end of the file"""
    DUMP_LOCATION = 554
    """location in a minidump ends past the end of the file"""
    DUMP_LIST_SIZE = 555
    """number of entries of a list and the size of its stream do not agree"""
    DUMP_ENTRY_SIZE = 556
    """entries of a list smaller than their fields"""
    DUMP_TEXT = 557
    """string has an odd number of bytes"""
    DUMP_CONTEXT_SIZE = 558
    """context smaller than its fields"""
    DUMP_CONTEXT_FLAGS = 559
    """context without control or integer registers"""
    DUMP_MACHINE = 560
    """context of another machine"""
    PDB20 = 601
    """a PDB 2.0, which has another layout"""
    PDB_PORTABLE = 602
    """a portable PDB of .NET, which has another layout"""
    PDB_MAGIC = 603
    """not a PDB 7.0"""
    PDB_BLOCK_SIZE = 604
    """invalid block size of a PDB"""
    PDB_FILE_SIZE = 605
    """blocks of a PDB end past the end of the file"""
    PDB_BLOCK_MAP = 606
    """directory of a PDB larger than the file, or than its superblock can list"""
    PDB_BLOCK = 607
    """block of a PDB lies outside of the file"""
    PDB_DIRECTORY = 608
    """directory of a PDB too short for its streams"""
    PDB_NO_STREAM = 609
    """PDB has no stream with this number"""
    PDB_STREAM_SIZE = 610
    """stream of a PDB has more blocks than the file"""
    PDB_OUTSIDE = 611
    """read past the end of a stream of a PDB"""
    PDB_INFO_VERSION = 612
    """unknown version of the info stream of a PDB"""
    PDB_DBI_SIGNATURE = 613
    """DBI stream of a PDB does not start with -1"""
    PDB_DBI_VERSION = 614
    """unknown version of the DBI stream of a PDB"""
    PDB_DBI_PARTS = 615
    """parts of the DBI stream of a PDB end past its end"""
    PDB_SECTION_HEADERS = 616
    """section headers of a PDB are not a multiple of 40 bytes"""
    PDB_RECORD_SIZE = 617
    """record of a symbol smaller than its kind"""
    PDB_RECORD_TRUNCATED = 618
    """record of a PDB ends past the end of its bytes"""
    PDB_NAME = 619
    """name in a PDB not NUL-terminated or not UTF-8"""
    PDB_MODULE_SYMBOLS = 620
    """symbols of a module end past the end of its stream"""
    PDB_MODULE_SIGNATURE = 621
    """stream of a module does not start with 4"""
    PDB_SYMBOLS_SIZE = 622
    """records of a PDB have 4 GB or more"""
    PDB_NAMES_SIGNATURE = 623
    """names of the source files of a PDB do not start with 0xEFFEEFFE"""
    PDB_CONTRIBUTIONS_VERSION = 624
    """unknown version of the section contributions of a PDB"""
    PDB_CONTRIBUTIONS_SIZE = 625
    """section contributions of a PDB are not a multiple of their size"""
    PDB_ANNOTATION = 626
    """annotation of an inlined function truncated or not known"""
    PDB_INLINE_DEPTH = 627
    """more than 64 inlined functions at one offset of a procedure"""
    OTHER = -1
    """a number that this version does not know"""

    @classmethod
    def _missing_(cls, value: object) -> "Kind":
        return cls.OTHER


class KnownOid(enum.IntEnum):
    """An object identifier in signatures that has a number in pe.h. Numbers never change, and new ones may come."""

    OTHER = 0
    DATA = 1
    SIGNED_DATA = 2
    TST_INFO = 3
    SPC_INDIRECT_DATA = 4
    SPC_PE_IMAGE_DATA = 5
    SPC_SIP_INFO = 6
    SPC_CAB_DATA = 7
    CTL = 8
    CONTENT_TYPE = 101
    MESSAGE_DIGEST = 102
    SIGNING_TIME = 103
    COUNTER_SIGNATURE = 104
    SIGNING_CERTIFICATE = 105
    AA_TIME_STAMP_TOKEN = 106
    SIGNING_CERTIFICATE_V2 = 107
    SPC_STATEMENT_TYPE = 108
    SPC_SP_OPUS_INFO = 109
    NESTED_SIGNATURE = 110
    TIME_STAMP_TOKEN = 111
    MD5 = 201
    SHA1 = 202
    SHA256 = 203
    SHA384 = 204
    SHA512 = 205
    RSA = 206
    MD5_RSA = 207
    SHA1_RSA = 208
    SHA256_RSA = 209
    SHA384_RSA = 210
    SHA512_RSA = 211
    RSA_PSS = 212
    EC = 213
    ECDSA_SHA1 = 214
    ECDSA_SHA256 = 215
    ECDSA_SHA384 = 216
    ECDSA_SHA512 = 217
    DSA = 218
    DSA_SHA1 = 219
    SHA1_RSA_OIW = 220
    MD2_RSA = 221
    COMMON_NAME = 301
    SERIAL_NUMBER = 302
    COUNTRY = 303
    LOCALITY = 304
    STATE = 305
    STREET = 306
    ORGANIZATION = 307
    ORGANIZATIONAL_UNIT = 308
    BUSINESS_CATEGORY = 309
    POSTAL_CODE = 310
    DOMAIN_COMPONENT = 311
    USER_ID = 312
    EMAIL_ADDRESS = 313
    JURISDICTION_COUNTRY = 314
    JURISDICTION_STATE = 315
    JURISDICTION_LOCALITY = 316
    SUBJECT_KEY_IDENTIFIER = 401
    KEY_USAGE = 402
    SUBJECT_ALT_NAME = 403
    BASIC_CONSTRAINTS = 404
    CERTIFICATE_POLICIES = 405
    AUTHORITY_KEY_IDENTIFIER = 406
    EXTENDED_KEY_USAGE = 407
    CRL_DISTRIBUTION_POINTS = 408
    AUTHORITY_INFORMATION_ACCESS = 409

    @classmethod
    def _missing_(cls, value: object) -> "KnownOid":
        return cls.OTHER


class Way(enum.IntEnum):
    """How a frame of a stack walk was found."""

    TOP = 0
    """it is the top frame"""
    RECORDS = 1
    """by the unwind records of the function that it called"""
    LEAF = 2
    """it called a leaf function"""
    INTERRUPT = 3
    """an interrupt stopped it: the records before it show what the processor pushed, on ARM64 what the
    operating system saved"""
    SCANNED = 4
    """by a scan of the stack, where no records led on: at the call that leads nearest into the code without
    records, on x64, else at the first call, else from a module without an image at the first address of one. It
    may be wrong, and those after it"""
    FRAME_POINTER = 5
    """by the frame pointer, where no records led on: the words to which rbp, or x29, leads are the frame
    pointer of the caller and a return address. It may be wrong, and those after it"""


class End(enum.IntEnum):
    """Why a stack walk is over."""

    BOUND = 0
    """as many frames were returned as the caller wants"""
    BOTTOM = 1
    """by records the last frame returns to 0, no frame is found there, and no frame is a guess. By its records
    the stack is whole. A return address that was overwritten may have led them astray, as where a frame by
    PE_C_WAY_RECORDS has not called"""
    NO_MODULE = 2
    """the last instruction pointer is in no module, or in one without an image, and no return address is
    found"""
    NO_FUNCTION = 3
    """no function covers the call in the last frame, and no return address is found"""
    RECORDS = 4
    """an unwind record of the last function cannot be read: `error` says why"""
    LONG_CHAIN = 5
    """more than 32 of them are chained"""
    STEP = 6
    """the step from the last frame is refused: `error` and `address` as in pe_c_step"""
    ZERO = 7
    """the last frame returns to 0, but a frame is a guess, as after a call of a null pointer, or no records
    describe the code of the last one: frames may be missing or wrong"""
    NO_RETURN_ADDRESS = 8
    """no records describe the code of the last frame, and where it would return to is no executable code, nor
    in a module without an image"""
