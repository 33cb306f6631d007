/* How interfaces ask and answer, by what the tables say of them and by names. */
#define _GNU_SOURCE
#include "asking.h"

#include <string.h>

static const struct pair pairs[] = {
	{ "ext_image_copy_capture_frame_v1", "capture", { "ready", "failed" }, NULL },
	{ "ext_image_copy_capture_session_v1", NULL, { "done", "stopped" }, "done" },
	{ "ext_session_lock_v1", NULL, { "locked", "finished" }, "locked" },
	{ "wp_drm_lease_v1", NULL, { "lease_fd", "finished" }, "lease_fd" },
	{ "xdg_activation_token_v1", "commit", { "done" }, NULL },
	{ "zkde_screencast_stream_unstable_v1", NULL, { "created", "failed" }, "created" },
	{ "zwlr_export_dmabuf_frame_v1", NULL, { "ready", "cancel" }, "ready" },
	{ "zwlr_output_configuration_v1", "apply", { "succeeded", "failed", "cancelled" }, NULL },
	{ "zwlr_output_configuration_v1", "test", { "succeeded", "failed", "cancelled" }, NULL },
	{ "zwlr_screencopy_frame_v1", NULL, { "buffer", "linux_dmabuf", "buffer_done", "ready", "failed" },
		"buffer" },
	{ "zwlr_screencopy_frame_v1", "copy", { "ready", "failed" }, NULL },
	{ "zwlr_screencopy_frame_v1", "copy_with_damage", { "ready", "failed" }, NULL },
	{ "zwp_linux_buffer_params_v1", "create", { "created", "failed" }, NULL },
};
#define PAIR_COUNT (sizeof pairs / sizeof *pairs)

static void note_name(struct role *role, struct name name, int from, const waywire_message *message)
{
	if (from == COMPOSITOR) {
		role->ends_by_event |= message->destroys == WAYWIRE_DESTROYS_TARGET;
		role->moves_data |= is_name(name, "send");
		return;
	}
	role->has_pong |= is_name(name, "pong");
	role->has_ack |= is_name(name, "ack_configure");
	role->has_toplevel |= is_name(name, "get_toplevel");
	role->moves_data |= is_name(name, "receive");
	role->sets_icon |= is_name(name, "set_cursor") || is_name(name, "start_drag");
}

static void find_messages(struct role *role, const waywire_tables *tables, uint16_t interface, int from)
{
	waywire_message message;
	struct name name;
	for (unsigned opcode = 0; opcode <= UINT16_MAX; opcode++) {
		if (waywire_tables_message(tables, interface, (waywire_sender)from, (uint16_t)opcode, &message, &name.bytes,
				&name.length))
			return;
		note_name(role, name, from, &message);
	}
}

static void find_by_name(struct role *role, const waywire_tables *tables, uint16_t interface)
{
	struct name name;
	if (waywire_tables_name(tables, interface, &name.bytes, &name.length))
		return;
	role->is_surface = is_name(name, "wl_surface");
	role->is_buffer = is_name(name, "wl_buffer");
	role->is_subcompositor = is_name(name, "wl_subcompositor");
	role->is_subsurface = is_name(name, "wl_subsurface");
	role->is_lock_surface = is_name(name, "ext_session_lock_surface_v1");
	role->has_own_release = is_name(name, "wp_linux_drm_syncobj_surface_v1")
		|| is_name(name, "zwp_linux_surface_synchronization_v1");
	for (size_t i = 0; i < PAIR_COUNT; i++) {
		if (!is_name(name, pairs[i].interface))
			continue;
		role->pairs = role->pairs ? role->pairs : &pairs[i];
		role->pair_count++;
	}
}

const struct role *role_of(struct questions *questions, const waywire_tables *tables, uint16_t interface)
{
	static const struct role none;
	if (interface == WAYWIRE_ANY_INTERFACE)
		return NULL;
	if (interface >= questions->role_count) {
		size_t count = (size_t)interface + 64;
		struct role *roles = realloc(questions->roles, count * sizeof *roles);
		if (!roles)
			return NULL;
		for (; questions->role_count < count; questions->role_count++)
			roles[questions->role_count] = none;
		questions->roles = roles;
	}
	struct role *role = &questions->roles[interface];
	if (role->is_known)
		return role;
	role->is_known = true;
	find_messages(role, tables, interface, CLIENT);
	find_messages(role, tables, interface, COMPOSITOR);
	find_by_name(role, tables, interface);
	return role;
}
