// The worker: it compiles the module once, and then makes one call for each message.
// A run cannot be interrupted from inside. To stop it, the page ends the whole worker.

let compiled = null;

async function compile(packed) {
  const unpacked = new Blob([packed]).stream().pipeThrough(new DecompressionStream('gzip'));
  return WebAssembly.compile(await new Response(unpacked).arrayBuffer());
}

onmessage = async ({ data }) => {
  try {
    if (data.packed) {
      compiled = compile(data.packed);
      await compiled;
    } else {
      const module = await compiled, begun = performance.now();
      const answer = callTool(module, data.request);
      postMessage({ answer: { ...answer, milliseconds: performance.now() - begun } });
    }
  } catch (fault) {
    postMessage({ fault: `${fault.name}: ${fault.message}` });
  }
};
