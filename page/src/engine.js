// The call of the tool, which is a WebAssembly module. The worker runs this file; nothing here touches the page.

// The module exports one call, menhir_page. The call takes words, files and input, writes what the program would write
// on out and err into two rooms, and returns the exit status. It also writes the whole lengths of out and err: where a
// length is larger than its room, the room has only the beginning, and the call is made again with larger rooms.

// The rooms of the first call: few answers are longer. Within a small limit the rooms are smaller.
const OUT_ROOM = 2 ** 22;
const ERR_ROOM = 2 ** 16;

// Thrown where not even the request has room within the limit.
class NoRoom extends Error {}

// Makes one call in a new instance of the module. So no run finds the memory of an earlier run, and a run that was
// ended by a trap leaves nothing.
function callOnce(module, request, outRoom, errRoom) {
  const tool = new WebAssembly.Instance(module, {}).exports;
  tool.heap_limit(BigInt(request.limit));

  const room = bytes => {
    const address = tool.malloc(BigInt(Math.max(bytes, 1)));
    if (!address) throw new NoRoom();
    return address;
  };
  const put = bytes => {
    const address = room(bytes.length);
    new Uint8Array(tool.memory.buffer).set(bytes, Number(address));
    return address;
  };
  // A slice is an address and a length; a list of slices lies in memory as these numbers, one after another.
  const slice = bytes => [put(bytes), BigInt(bytes.length)];
  const list = numbers => put(new Uint8Array(new BigUint64Array(numbers).buffer));
  const utf8 = text => new TextEncoder().encode(text);

  const words = list(request.words.flatMap(word => slice(utf8(word))));
  const files = list(request.files.flatMap(({ name, bytes }) => [...slice(utf8(name)), ...slice(bytes)]));
  const input = slice(request.input);
  const out = room(outRoom), outLength = room(8);
  const err = room(errRoom), errLength = room(8);

  const status = 255 & tool.menhir_page(words, BigInt(request.words.length), files, BigInt(request.files.length),
    ...input, out, BigInt(outRoom), outLength, err, BigInt(errRoom), errLength);

  const length = address => Number(new DataView(tool.memory.buffer).getBigUint64(Number(address), true));
  const written = (address, bytes) => new Uint8Array(tool.memory.buffer, Number(address), bytes).slice();
  const lengths = { out: length(outLength), err: length(errLength) };
  return {
    status,
    out: written(out, Math.min(lengths.out, outRoom)),
    err: written(err, Math.min(lengths.err, errRoom)),
    lengths,
    used: Number(tool.heap_used()),
  };
}

// Makes the call, with rooms that hold the whole answer.
function callTool(module, request) {
  let outRoom = Math.min(OUT_ROOM, Math.floor(request.limit / 16)), errRoom = ERR_ROOM;
  try {
    for (;;) {
      const answer = callOnce(module, request, outRoom, errRoom);
      if (answer.lengths.out <= outRoom && answer.lengths.err <= errRoom) return answer;
      outRoom = Math.max(outRoom, answer.lengths.out);
      errRoom = Math.max(errRoom, answer.lengths.err);
    }
  } catch (fault) {
    if (!(fault instanceof NoRoom)) throw fault;
    const err = new TextEncoder().encode('menhir: out of memory\n');
    return { status: 6, out: new Uint8Array(), err, used: request.limit };
  }
}
