// The types of the library in Node.
import { Opener } from "./index.js";

export * from "./index.js";

/** Options of Node's `tls.connect`, such as the certificate of an authority of one's own. */
export interface TlsOptions { ca?: string | Uint8Array; servername?: string; [option: string]: unknown }

/** Opens `tcp://HOST:PORT` or `tls://HOST:PORT`. The port is 7878 unless it is named. */
export function tcp(address: string, options?: TlsOptions): Opener;
