/* Reads replies and mailslot messages by Samba's libndr and writes them anew. Each line that comes in is `reply` or
   `mailslot` and octets in hex; a line `FORM FIELDS PUSHED` goes out for it, or `refused:NUMBER` with libndr's error.
   FIELDS are those of a `read` answer, but names have no pointer count, texts are UTF-8 and addresses dotted; of a
   message they are all that libndr keeps. PUSHED is what libndr writes from the fields. */
#include <stdint.h>
#include <stdio.h>
#include <stdlib.h>
#include <string.h>
#include <talloc.h>
#include <core/ntstatus.h>
#include <ndr.h>
#include <gen_ndr/ndr_misc.h>
#include <gen_ndr/ndr_nbt.h>
#include <ndr/ndr_nbt.h>

#define EVERYTHING (NDR_SCALARS | NDR_BUFFERS)
#define MESSAGE "mailslot "
#define REPLY "reply "

static DATA_BLOB octets_of(TALLOC_CTX *room, const char *digits)
{
	DATA_BLOB octets = data_blob_talloc(room, NULL, strlen(digits) / 2);
	for (size_t place = 0; place < octets.length; place++) {
		sscanf(digits + 2 * place, "%2hhx", &octets.data[place]);
	}
	return octets;
}

static void print_octets(const uint8_t *octets, size_t length)
{
	for (size_t place = 0; place < length; place++) {
		printf("%02x", octets[place]);
	}
}

static void print_text(const char *text)
{
	printf(" =");
	print_octets((const uint8_t *)text, strlen(text));
}

static void print_guid(TALLOC_CTX *room, const struct GUID *guid)
{
	DATA_BLOB octets;
	ndr_push_struct_blob(&octets, room, guid, (ndr_push_flags_fn_t)ndr_push_GUID);
	printf(" ");
	print_octets(octets.data, octets.length);
}

static void print_nt40(const struct NETLOGON_SAM_LOGON_RESPONSE_NT40 *reply)
{
	printf("nt40 %u", reply->command);
	print_text(reply->pdc_name);
	print_text(reply->user_name);
	print_text(reply->domain_name);
	printf(" %u", reply->nt_version);
}

static void print_response(TALLOC_CTX *room, const struct NETLOGON_SAM_LOGON_RESPONSE *reply)
{
	printf("response %u", reply->command);
	print_text(reply->pdc_name);
	print_text(reply->user_name);
	print_text(reply->domain_name);
	print_guid(room, &reply->domain_uuid);
	print_text(reply->forest);
	print_text(reply->dns_domain);
	print_text(reply->pdc_dns_name);
	printf(" %s %08x %u", reply->pdc_ip, reply->server_type, reply->nt_version);
}

static void print_ex(TALLOC_CTX *room, const struct NETLOGON_SAM_LOGON_RESPONSE_EX *reply)
{
	const char *names[] = {reply->forest, reply->dns_domain, reply->pdc_dns_name, reply->domain_name,
			       reply->pdc_name, reply->user_name, reply->server_site, reply->client_site};
	printf("ex %u %08x", reply->command, reply->server_type);
	print_guid(room, &reply->domain_uuid);
	for (size_t place = 0; place < sizeof names / sizeof *names; place++) {
		print_text(names[place]);
	}
	printf(" %s", reply->nt_version & NETLOGON_NT_VERSION_5EX_WITH_IP ? reply->sockaddr.pdc_ip : ".");
	if (reply->nt_version & NETLOGON_NT_VERSION_WITH_CLOSEST_SITE) {
		print_text(reply->next_closest_site);
	} else {
		printf(" .");
	}
	printf(" %u", reply->nt_version);
}

/* The form, and what an EX reply holds, are libndr's own choice by the version in the reply. */
static void print_fields(TALLOC_CTX *room, const struct netlogon_samlogon_response *reply)
{
	if (reply->ntver == NETLOGON_NT_VERSION_1) {
		print_nt40(&reply->data.nt4);
	} else if (reply->ntver & NETLOGON_NT_VERSION_5EX) {
		print_ex(room, &reply->data.nt5_ex);
	} else {
		print_response(room, &reply->data.nt5);
	}
}

/* Revision, authority and parts. No SID is one of zeros to libndr, but of size 0. */
static void print_sid(uint32_t size, const struct dom_sid *sid)
{
	printf(" %u %u-", size, sid->sid_rev_num);
	print_octets(sid->id_auth, sizeof sid->id_auth);
	for (int place = 0; place < sid->num_auths; place++) {
		printf("-%u", sid->sub_auths[place]);
	}
}

static void print_message(const struct NETLOGON_SAM_LOGON_REQUEST *message)
{
	printf(" %u", message->request_count);
	print_text(message->computer_name);
	print_text(message->user_name);
	print_text(message->mailslot_name);
	printf(" %08x =", message->acct_control);
	print_octets(message->_pad.data, message->_pad.length);
	print_sid(message->sid_size, &message->sid);
	printf(" %08x %04x %04x", message->nt_version, message->lmnt_token, message->lm20_token);
}

static void print_pushed(const struct ndr_push *ndr, enum ndr_err_code error)
{
	if (error == NDR_ERR_SUCCESS) {
		printf(" ");
		print_octets(ndr->data, ndr->offset);
	} else {
		printf(" refused:%u", error);
	}
}

static enum ndr_err_code answer_reply(TALLOC_CTX *room, DATA_BLOB octets)
{
	struct netlogon_samlogon_response reply = {0};
	struct ndr_pull *pull = ndr_pull_init_blob(&octets, room);
	struct ndr_push *push = ndr_push_init_ctx(room);
	enum ndr_err_code error = ndr_pull_netlogon_samlogon_response(pull, EVERYTHING, &reply);
	if (error == NDR_ERR_SUCCESS) {
		print_fields(room, &reply);
		print_pushed(push, ndr_push_netlogon_samlogon_response(push, EVERYTHING, &reply));
	}
	return error;
}

/* By its opcode it may be another message, of which nothing is shown but that. */
static enum ndr_err_code answer_message(TALLOC_CTX *room, DATA_BLOB octets)
{
	struct nbt_netlogon_packet message = {0};
	struct ndr_pull *pull = ndr_pull_init_blob(&octets, room);
	struct ndr_push *push = ndr_push_init_ctx(room);
	enum ndr_err_code error = ndr_pull_nbt_netlogon_packet(pull, EVERYTHING, &message);
	if (error == NDR_ERR_SUCCESS) {
		printf("mailslot %u", message.command);
		if (message.command == LOGON_SAM_LOGON_REQUEST) {
			print_message(&message.req.logon);
		}
		print_pushed(push, ndr_push_nbt_netlogon_packet(push, EVERYTHING, &message));
	}
	return error;
}

static enum ndr_err_code answer(TALLOC_CTX *room, const char *line)
{
	if (strncmp(line, MESSAGE, strlen(MESSAGE)) == 0) {
		return answer_message(room, octets_of(room, line + strlen(MESSAGE)));
	}
	return answer_reply(room, octets_of(room, line + strlen(REPLY)));
}

int main(void)
{
	char *line = NULL;
	size_t size = 0;
	while (getline(&line, &size, stdin) > 0) {
		TALLOC_CTX *room = talloc_new(NULL);
		line[strcspn(line, "\n")] = '\0';
		enum ndr_err_code error = answer(room, line);
		if (error != NDR_ERR_SUCCESS) {
			printf("refused:%u", error);
		}
		printf("\n");
		talloc_free(room);
	}
	free(line);
	return 0;
}
