/* gdos-mount: libfuse3's operations handed to those of mount.rs, and back. Nothing is decided here: each function turns what libfuse has
 * into plain numbers and strings, calls the operation of the same name and hands its answer on: what was done, or an errno below zero. */
#define FUSE_USE_VERSION 31
#include <fuse.h>

#include <errno.h>
#include <stdbool.h>
#include <stdint.h>
#include <stdio.h>
#include <string.h>
#include <sys/statvfs.h>
#include <syslog.h>
#include <time.h>
#include <unistd.h>

/* As in ffi.rs. */
struct gdos_attributes {
    uint64_t inode, size, blocks; /* blocks of 512 bytes */
    int64_t time;
    uint32_t mode, links;
};
struct gdos_room {
    uint64_t granule_bytes, granules, free_granules, slots, free_slots, longest_name;
};
typedef void gdos_each(void *to, const char *name, const struct gdos_attributes *attributes);

/* The operations, in Rust. A file is a number that open or create gave, 0 where there is none; a path may be null where there is one. */
int gdos_mount_getattr(void *mount, const char *path, uint64_t file, struct gdos_attributes *attributes);
int gdos_mount_readdir(void *mount, void *to, gdos_each *each);
int gdos_mount_open(void *mount, const char *path, bool cut, uint64_t *file);
int gdos_mount_create(void *mount, const char *path, bool only_new, bool cut, uint64_t *file);
int gdos_mount_read(void *mount, uint64_t file, char *buffer, size_t length, uint64_t offset);
int gdos_mount_write(void *mount, uint64_t file, const char *buffer, size_t length, uint64_t offset, bool append);
int gdos_mount_truncate(void *mount, const char *path, uint64_t file, uint64_t size);
int gdos_mount_unlink(void *mount, const char *path);
int gdos_mount_statfs(void *mount, struct gdos_room *room);
int gdos_mount_getxattr(void *mount, const char *path, const char *name, char *value, size_t length);
int gdos_mount_listxattr(void *mount, const char *path, char *list, size_t length);
int gdos_mount_allot(void *mount, uint64_t file, uint64_t end);
int gdos_mount_save(void *mount);
void gdos_mount_release(void *mount, uint64_t file);
int gdos_mount_mode(void *mount, const char *path, uint64_t file, uint32_t mode);
int gdos_mount_time(void *mount, const char *path, uint64_t file, bool now, int64_t time);
int gdos_mount_no_call(void *mount, const char *operation, const char *path, bool not_permitted);

static bool writable;

static void *mount(void)
{
    return fuse_get_context()->private_data;
}

static uint64_t file_of(const struct fuse_file_info *fi)
{
    return fi ? fi->fh : 0;
}

static void fill_stat(struct stat *to, const struct gdos_attributes *from)
{
    memset(to, 0, sizeof *to);
    to->st_ino = from->inode;
    to->st_mode = from->mode;
    to->st_nlink = from->links;
    to->st_size = (off_t)from->size;
    to->st_blocks = (blkcnt_t)from->blocks;
    to->st_blksize = 4096;
    to->st_mtime = to->st_atime = to->st_ctime = (time_t)from->time;
    to->st_uid = getuid();
    to->st_gid = getgid();
}

/* Where the disk can change the kernel keeps no name, since two spellings are one file, and no bytes, so that a refused write is told by
 * the write. */
static void *op_init(struct fuse_conn_info *connection, struct fuse_config *config)
{
    (void)connection;
    config->use_ino = 1;
    config->nullpath_ok = 1;
    config->hard_remove = 1;
    if (writable) {
        config->direct_io = 1;
        config->entry_timeout = config->attr_timeout = config->negative_timeout = 0;
    } else {
        config->kernel_cache = 1;
    }
    return mount();
}

static int op_getattr(const char *path, struct stat *to, struct fuse_file_info *fi)
{
    struct gdos_attributes attributes;
    const int answer = gdos_mount_getattr(mount(), path, file_of(fi), &attributes);
    if (!answer) fill_stat(to, &attributes);
    return answer;
}

struct filling {
    void *buffer;
    fuse_fill_dir_t fill;
};

static void fill_one(void *to, const char *name, const struct gdos_attributes *attributes)
{
    const struct filling *const filling = to;
    struct stat stat;
    fill_stat(&stat, attributes);
    filling->fill(filling->buffer, name, &stat, 0, 0);
}

static int op_readdir(const char *path, void *buffer, fuse_fill_dir_t fill, off_t offset, struct fuse_file_info *fi,
                      enum fuse_readdir_flags flags)
{
    struct filling filling = { buffer, fill };
    (void)path, (void)offset, (void)fi, (void)flags;
    fill(buffer, ".", NULL, 0, 0);
    fill(buffer, "..", NULL, 0, 0);
    return gdos_mount_readdir(mount(), &filling, fill_one);
}

static int op_open(const char *path, struct fuse_file_info *fi)
{
    return gdos_mount_open(mount(), path, fi->flags & O_TRUNC, &fi->fh);
}

static int op_create(const char *path, mode_t mode, struct fuse_file_info *fi)
{
    (void)mode;
    return gdos_mount_create(mount(), path, fi->flags & O_EXCL, fi->flags & O_TRUNC, &fi->fh);
}

static int op_read(const char *path, char *buffer, size_t length, off_t offset, struct fuse_file_info *fi)
{
    (void)path;
    return gdos_mount_read(mount(), fi->fh, buffer, length, (uint64_t)offset);
}

static int op_write(const char *path, const char *buffer, size_t length, off_t offset, struct fuse_file_info *fi)
{
    (void)path;
    return gdos_mount_write(mount(), fi->fh, buffer, length, (uint64_t)offset, fi->flags & O_APPEND);
}

static int op_truncate(const char *path, off_t size, struct fuse_file_info *fi)
{
    return gdos_mount_truncate(mount(), path, file_of(fi), (uint64_t)size);
}

static int op_unlink(const char *path)
{
    return gdos_mount_unlink(mount(), path);
}

static int op_statfs(const char *path, struct statvfs *to)
{
    struct gdos_room room;
    const int answer = gdos_mount_statfs(mount(), &room);
    (void)path;
    if (answer) return answer;
    memset(to, 0, sizeof *to);
    to->f_bsize = to->f_frsize = room.granule_bytes;
    to->f_blocks = room.granules;
    to->f_bfree = to->f_bavail = room.free_granules;
    to->f_files = room.slots;
    to->f_ffree = to->f_favail = room.free_slots;
    to->f_namemax = room.longest_name;
    return 0;
}

static int op_getxattr(const char *path, const char *name, char *value, size_t length)
{
    return gdos_mount_getxattr(mount(), path, name, value, length);
}

static int op_listxattr(const char *path, char *list, size_t length)
{
    return gdos_mount_listxattr(mount(), path, list, length);
}

/* Space without a size is what the system calls allot; any other kind is not to be had. */
static int op_fallocate(const char *path, int mode, off_t offset, off_t length, struct fuse_file_info *fi)
{
    const int keep_size = 1; /* FALLOC_FL_KEEP_SIZE */
    if (mode != keep_size) return gdos_mount_no_call(mount(), "fallocate but for --keep-size", path, false);
    return gdos_mount_allot(mount(), fi->fh, (uint64_t)offset + (uint64_t)length);
}

static int op_flush(const char *path, struct fuse_file_info *fi)
{
    (void)path, (void)fi;
    return gdos_mount_save(mount());
}

static int op_fsync(const char *path, int only_data, struct fuse_file_info *fi)
{
    (void)path, (void)only_data, (void)fi;
    return gdos_mount_save(mount());
}

static int op_release(const char *path, struct fuse_file_info *fi)
{
    (void)path;
    gdos_mount_release(mount(), fi->fh);
    return 0;
}

static int op_chmod(const char *path, mode_t mode, struct fuse_file_info *fi)
{
    return gdos_mount_mode(mount(), path, file_of(fi), mode);
}

static int op_chown(const char *path, uid_t user, gid_t group, struct fuse_file_info *fi)
{
    (void)fi;
    if ((user == (uid_t)-1 || user == getuid()) && (group == (gid_t)-1 || group == getgid())) return 0;
    return gdos_mount_no_call(mount(), "chown", path, false);
}

static int op_utimens(const char *path, const struct timespec times[2], struct fuse_file_info *fi)
{
    if (times[1].tv_nsec == UTIME_OMIT) return 0;
    return gdos_mount_time(mount(), path, file_of(fi), times[1].tv_nsec == UTIME_NOW, times[1].tv_sec);
}

static int op_setxattr(const char *path, const char *name, const char *value, size_t length, int flags)
{
    (void)name, (void)value, (void)length, (void)flags;
    return gdos_mount_no_call(mount(), "setxattr", path, false);
}

static int op_removexattr(const char *path, const char *name)
{
    (void)name;
    return gdos_mount_no_call(mount(), "removexattr", path, false);
}

static int op_rename(const char *from, const char *to, unsigned flags)
{
    (void)to, (void)flags;
    return gdos_mount_no_call(mount(), "rename", from, false);
}

static int op_mkdir(const char *path, mode_t mode)
{
    (void)mode;
    return gdos_mount_no_call(mount(), "mkdir", path, true);
}

static int op_mknod(const char *path, mode_t mode, dev_t device)
{
    (void)mode, (void)device;
    return gdos_mount_no_call(mount(), "mknod", path, true);
}

static int op_symlink(const char *to, const char *path)
{
    (void)to;
    return gdos_mount_no_call(mount(), "symlink", path, true);
}

static int op_link(const char *from, const char *path)
{
    (void)from;
    return gdos_mount_no_call(mount(), "link", path, true);
}

static const struct fuse_operations operations = {
    .init = op_init, .getattr = op_getattr, .readdir = op_readdir, .open = op_open, .create = op_create, .read = op_read, .write = op_write,
    .truncate = op_truncate, .unlink = op_unlink, .statfs = op_statfs, .getxattr = op_getxattr, .listxattr = op_listxattr,
    .fallocate = op_fallocate, .flush = op_flush, .fsync = op_fsync, .fsyncdir = op_fsync, .release = op_release, .chmod = op_chmod,
    .chown = op_chown, .utimens = op_utimens, .setxattr = op_setxattr, .removexattr = op_removexattr, .rename = op_rename,
    .mkdir = op_mkdir, .mknod = op_mknod, .symlink = op_symlink, .link = op_link,
};

/* Mounts, works until it is unmounted or told to end by a signal, and unmounts. In the background the caller's process ends as soon as
 * the mount stands, with status 0. Answers 0; or 1 where it could not be mounted, of which libfuse has told on standard error; or 2 where
 * it broke off. */
int gdos_fuse_run(void *mounted, const char *folder, const char *options, bool changes, bool foreground)
{
    char *arguments[] = { "gdos-mount", "-o", (char *)options, NULL };
    struct fuse_args args = FUSE_ARGS_INIT(3, arguments);
    int answer = 1;
    writable = changes;
    struct fuse *const fuse = fuse_new(&args, &operations, sizeof operations, mounted);
    if (fuse) {
        if (!fuse_mount(fuse, folder)) {
            if (!fuse_daemonize(foreground) && !fuse_set_signal_handlers(fuse_get_session(fuse))) {
                answer = fuse_loop(fuse) < 0 ? 2 : 0;
                fuse_remove_signal_handlers(fuse_get_session(fuse));
            }
            fuse_unmount(fuse);
        }
        fuse_destroy(fuse);
    }
    fuse_opt_free_args(&args);
    return answer;
}

/* The host's number of an error that errno.rs names, in its order. */
int gdos_errno(int which)
{
    static const int numbers[] = {
        EACCES, EBADF, EEXIST, EFBIG, EINVAL, EIO, EISDIR, ENODATA, ENOENT, ENOSPC, EOPNOTSUPP, EPERM, ERANGE, EROFS, ESTALE,
    };
    return numbers[which];
}

/* A line for the host's log; a lesser one is told only to who asks for such. */
void gdos_syslog(bool lesser, const char *line)
{
    openlog("gdos-mount", LOG_PID, LOG_DAEMON);
    syslog(lesser ? LOG_DEBUG : LOG_NOTICE, "%s", line);
}
