/** A mistake of the caller, reported in one line with the status 2. */
export class UserError extends Error {}

const REASONS = {
  ENOENT: 'no such file or folder', EISDIR: 'it is a folder', EACCES: 'permission denied', EPERM: 'permission denied',
  ENOTDIR: 'a part of the path is not a folder', EEXIST: 'a file of that name exists', ENOSPC: 'no space left', EROFS: 'read-only',
  ELOOP: 'too many links', ENAMETOOLONG: 'the name is too long',
};

/** Why the system refused, in words if it is a common reason. */
export const reasonOf = (error) => REASONS[error.code] ?? error.code;

/** Does something with a file. If the system refuses, the answer is a `UserError` with what was tried and the reason. */
export function withFile(attempt, action) {
  try {
    return action();
  } catch (error) {
    if (!error.code || error.syscall === undefined) throw error;
    throw new UserError(`cannot ${attempt}: ${reasonOf(error)}`);
  }
}
