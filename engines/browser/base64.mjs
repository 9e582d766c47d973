/** Bytes in base64, in a page. */

export const bytesOf = (text) => Uint8Array.from(atob(text), (character) => character.charCodeAt(0));

export function base64Of(bytes) {
  let text = '';
  for (const byte of bytes) text += String.fromCharCode(byte);
  return btoa(text);
}
