import { Session } from "./index.js";

/** Shows the pad that a session has open in an editor of CodeMirror 5, and takes what is typed there. Returns a function that ends this. */
export function bindCodeMirror(editor: object, session: Session): () => void;
