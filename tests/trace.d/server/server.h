struct request {
    char *verb;
    char *path;
};

struct request *parse_request(const char *line);
void free_request(struct request *request);
void log_request(const struct request *request);
void close_session(char *user);
