// By whom a signature is, as it says: what `pe --json` has of it. Nothing is verified.
import { constants } from './layouts.mjs';
import { PeError } from './memory.mjs';

const hex = (bytes) => Array.from(bytes, (it) => it.toString(16).padStart(2, '0')).join('');
const PKCS_SIGNED_DATA = 2, NAME = 4096;

// ---- object identifiers and algorithms

const DIGESTS = { MD5: 'MD5', SHA1: 'SHA-1', SHA256: 'SHA-256', SHA384: 'SHA-384', SHA512: 'SHA-512' };
const OIDS = Object.fromEntries(Object.entries(constants).filter(([name]) => name.startsWith('PE_C_OID_') && name !== 'PE_C_OID_OTHER')
  .map(([name, number]) => [number, name.slice('PE_C_OID_'.length)]));

/** The numbers of an object identifier with dots; `?` stands for one that is truncated or has more than 64 bits. */
export function dotted(octets) {
  const arcs = [];
  let value = 0n, isRead = false;
  for (const octet of octets) {
    // A value of more than 64 bits stays so: it does not grow with a long arc.
    value = value >> 64n ? value : value * 128n + BigInt(octet % 128);
    isRead = octet >= 128;
    if (isRead) continue;
    arcs.push(value < 1n << 64n ? value : null);
    value = 0n;
  }
  if (isRead) arcs.push(null);
  return arcs.map((arc, i) => {
    if (arc === null) return '?';
    const first = arc / 40n < 2n ? arc / 40n : 2n;
    return i ? arc : `${first}.${arc - 40n * first}`;
  }).join('.');
}

/** The name of an algorithm, or its object identifier. */
export function algorithmOf(image, { oid }) {
  const known = OIDS[oid.id];
  return known ? DIGESTS[known] ?? known.replaceAll('_', ' ') : dotted(image.slice(oid.octets));
}

// ---- names, by RFC 4514

const utf8 = new TextDecoder('utf-8', { ignoreBOM: true }), utf16 = new TextDecoder('utf-16be', { ignoreBOM: true });
const DESCRIPTORS = {
  COMMON_NAME: 'CN', SERIAL_NUMBER: 'serialNumber', COUNTRY: 'C', LOCALITY: 'L', STATE: 'ST', STREET: 'STREET', ORGANIZATION: 'O',
  ORGANIZATIONAL_UNIT: 'OU', BUSINESS_CATEGORY: 'businessCategory', POSTAL_CODE: 'postalCode', DOMAIN_COMPONENT: 'DC',
  USER_ID: 'UID', EMAIL_ADDRESS: 'emailAddress',
};

/** The value of an attribute as a text; null where it is no string. */
function text(tag, value) {
  switch (tag) {
    case 0x0C: case 0x12: case 0x13: case 0x16: case 0x1A: return utf8.decode(value);
    case 0x14: return Array.from(value, (it) => String.fromCharCode(it)).join('');
    case 0x1E: return utf16.decode(value.subarray(0, value.length & ~1));
  }
  return null;
}

const octetsOf = (char) => Array.from(new TextEncoder().encode(char), (it) => `\\${it.toString(16).padStart(2, '0').toUpperCase()}`);

/** A text as RFC 4514, 2.4 escapes it. Control characters are escaped too. */
function escaped(value) {
  const chars = [...value];
  return chars.map((char, i) => {
    if (char === ' ') return i === 0 || i === chars.length - 1 ? '\\ ' : char;
    if ((char === '#' && i === 0) || '"+,;<>\\'.includes(char)) return `\\${char}`;
    return /[\u0000-\u001F\u007F-\u009F]/.test(char) ? octetsOf(char).join('') : char;
  }).join('');
}

/** The octets of a value, with tag and length. */
function digits(tag, value) {
  const length = hex([value.length >>> 24, value.length >>> 16 & 255, value.length >>> 8 & 255, value.length & 255]).replace(/^(00)+/, '');
  const head = value.length < 128 ? hex([tag, value.length]) : hex([tag, 128 + length.length / 2]) + length;
  return `#${(head + hex(value)).toUpperCase()}`;
}

function attribute(image, { type, value, tag }) {
  const descriptor = DESCRIPTORS[OIDS[type.id]], octets = image.slice(value), string = text(tag, octets);
  const known = descriptor ?? dotted(image.slice(type.octets));
  return `${known}=${descriptor && string !== null ? escaped(string) : digits(tag, octets)}`;
}

/** A name: its relative distinguished names in reverse order, and `<damaged>` in place of what is refused. */
function name(image, range) {
  if (range.length > NAME) return `a name of ${range.length} bytes`;
  const found = [];
  let before = '';
  try {
    const walk = range.length ? image.call('pe_c_name', { range }) : null;
    for (const it of walk ? image.items('pe_c_next_name_attribute', walk) : []) {
      const last = attribute(image, it);
      if (it.starts_rdn || !found.length) found.push(last);
      else found.push(`${found.pop()}+${last}`);
    }
  } catch (error) {
    if (!(error instanceof PeError)) throw error;
    before = '<damaged>';
  }
  return [...before ? [before] : [], ...found.reverse()].join(',');
}

// ---- signatures

const read = (image, call, range) => image.call(call, { range });
const isSame = (one, other) => hex(one) === hex(other);

/** What a call reads of each element of a list; an element that is refused is left out where the list is to be searched. */
function* each(image, call, list, isSearched = false) {
  for (const element of image.items('pe_c_next_element', { ...list })) {
    try {
      yield { ...read(image, call, element.whole), whole: element.whole };
    } catch (error) {
      if (!isSearched || !(error instanceof PeError)) throw error;
    }
  }
}

/** The first value of the first attribute of a kind; undefined without one. */
function value(image, attributes, kind) {
  for (const it of image.items('pe_c_find_attribute', { ...attributes }, { id: kind })) {
    for (const element of image.items('pe_c_next_element', { ...it.values })) return element.whole;
  }
  return undefined;
}

function instant(image, range) {
  const it = read(image, 'pe_c_time', range), two = (number) => String(number).padStart(2, '0');
  return `${String(it.year).padStart(4, '0')}-${two(it.month)}-${two(it.day)}T${two(it.hour)}:${two(it.minute)}:${two(it.second)}Z`;
}

/** What the first time stamp of a signer says. A counter-signature comes first. */
function stamp(image, signer) {
  const older = value(image, signer.unsigned_attributes, constants.PE_C_OID_COUNTER_SIGNATURE);
  if (older) {
    const time = value(image, read(image, 'pe_c_signer', older).signed_attributes, constants.PE_C_OID_SIGNING_TIME);
    return time ? instant(image, time) : null;
  }
  const newer = value(image, signer.unsigned_attributes, constants.PE_C_OID_TIME_STAMP_TOKEN);
  const token = newer && read(image, 'pe_c_signature', newer);
  if (token?.content_type.id !== constants.PE_C_OID_TST_INFO || !token.has_content) return null;
  return instant(image, read(image, 'pe_c_time_stamp', token.content).time);
}

/** What is there, or null where it is refused. */
function orNull(of) {
  try {
    return of() ?? null;
  } catch (error) {
    if (!(error instanceof PeError)) throw error;
    return null;
  }
}

function certificateOf(image, signature, { issuer, serial }) {
  if (!issuer.length) return null;
  const [name, number] = [image.slice(issuer), image.slice(serial)];
  try {
    for (const it of each(image, 'pe_c_x509', signature.certificates, true)) {
      if (isSame(image.slice(it.issuer), name) && isSame(image.slice(it.serial), number)) return it;
    }
  } catch (error) {
    if (!(error instanceof PeError)) throw error;
  }
  return null;
}

/** The first signer of a certificate that is a signature; null of what is no signature. Throws where it is refused. */
export function readSigner(image, certificate) {
  if (certificate.type !== PKCS_SIGNED_DATA) return null;
  const signature = read(image, 'pe_c_signature', certificate.body);
  const { value: signer } = each(image, 'pe_c_signer', signature.signers).next();
  if (!signer) return null;
  const own = certificateOf(image, signature, signer);
  return {
    subject: own && name(image, own.subject), issuer: name(image, signer.issuer), serial_hex: hex(image.slice(signer.serial)),
    digest_algorithm: algorithmOf(image, signer.digest_algorithm), time_stamp: orNull(() => stamp(image, signer)),
  };
}

/** The same; null where it is refused too. */
export const signerOf = (image, certificate) => orNull(() => readSigner(image, certificate));
