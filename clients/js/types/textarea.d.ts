import { Session } from "./index.js";

/** Shows the pad that a session has open in a text area, and takes what is typed there. Returns a function that ends this. */
export function bindTextarea(area: HTMLTextAreaElement, session: Session): () => void;
